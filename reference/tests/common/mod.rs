//! Short names for the tests.
#![allow(dead_code)]

pub mod hand_backs;

use reference::calls::call;
use reference::codes::Code;
use reference::demand3::{opened, Gate};
use reference::events::{notice, step, Admission, Event};
use reference::generate::lists;
use reference::print;
use reference::set::VectorSet;
use reference::state::{items, start, Item, Module, Record};
use reference::sums::{Rules, Sums};
use reference::sums_check::{all_meet, hold};
use reference::trace::{self, Line};

/// A fresh module of n vCPUs for L.
pub fn fresh(n: u32, vmpl: u32) -> Module {
    let (answer, module) = start(n, vmpl);
    assert_eq!(answer, Ok(()));
    module
}

/// L = 1, n = 2, with this set allowed on vCPU 0.
pub fn allowing(vectors: &[usize]) -> Module {
    let mut m = fresh(2, 1);
    m.records[0].allowed = set(vectors);
    m
}

pub fn set(vectors: &[usize]) -> VectorSet {
    VectorSet::of(vectors)
}

/// A page of 256 bytes, zero but for these.
pub fn page(bytes: &[(usize, u8)]) -> Vec<u8> {
    let mut page = vec![0; 256];
    for &(offset, byte) in bytes {
        page[offset] = byte;
    }
    page
}

/// A notice's answer: the items that became pending, and those that were (4.29, 4.37).
pub fn counted(new: u32, merged: u32) -> Result<Admission, Code> {
    Ok(Admission { new, merged })
}

/// The answer of a notice to vCPU 0 with this record and everything allowed, and the record after it.
pub fn told(record: &Record, bytes: &[(usize, u8)]) -> (Result<Admission, Code>, Record) {
    let mut m = fresh(2, 1);
    m.records[0] = record.clone();
    m.records[0].allowed = VectorSet::all();
    (notice(&mut m, 0, &mut page(bytes)), m.records[0].clone())
}

pub fn read(m: &mut Module, vcpu: u32, register: u32) -> Result<u64, Code> {
    call(m, vcpu, 2, register, 0)
}

pub fn write(m: &mut Module, vcpu: u32, register: u32, value: u64) -> Result<u64, Code> {
    call(m, vcpu, 3, register, value)
}

/// ECX of call 1.
pub const LEAVE: u32 = 0;
pub const DEREGISTER: u32 = 1;
pub const REGISTER: u32 = 2;

/// The ways in which ICR bits 14 and 15 can stand (7.5).
pub const BITS_14_AND_15: [u64; 4] = [0, 0x4000, 0x8000, 0xC000];

/// The events are answered by a gate and by the reference, each on its own module; whether a line that
/// would be printed differs. Modules are not compared: a difference must come to show in an answer.
pub fn answers_differ(gate: Gate) -> bool {
    let (mut ours, mut theirs) = (Module::refused(), Module::refused());
    lists(6, 20_000).into_iter().flatten().any(|event| {
        let (mut one, mut other) = (event.clone(), event);
        let (a, b) = (gate(&mut ours, &mut one), step(&mut theirs, &mut other));
        print::answer(&one, &a) != print::answer(&other, &b)
    })
}

/// The events of a trace of one list.
pub fn events(trace: &str) -> Vec<Event> {
    let lines = trace
        .lines()
        .map(|line| trace::read(line.trim().as_bytes()));
    lines
        .filter_map(|line| match line {
            Line::Event(event) => Some(event),
            Line::Unreadable => panic!("unreadable"),
            _ => None,
        })
        .collect()
}

/// 2 stands for the NMI, 18 for the machine check (02, A7).
pub fn number(item: Item) -> usize {
    match item {
        Item::Nmi => 2,
        Item::MachineCheck => 18,
        Item::Vector(v) => v,
    }
}

/// A vCPU, an item's number, and its requests, returns, merged, presented, handed back, pending.
pub type Row = (u32, usize, [u64; 6]);

/// The rows of a list that have any number above 0, by vCPU and item, as these rules count them.
pub fn rows_by(rules: Rules, trace: &str) -> Vec<Row> {
    let list = events(trace);
    let (book, vmpl) = opened(&list);
    let mut sums = Sums::new(book, vmpl, rules);
    let mut module = Module::refused();
    for mut event in list {
        let asked = event.clone();
        let answer = step(&mut module, &mut event);
        sums.count(&asked, &answer).unwrap();
    }
    let mut rows: Vec<Row> = vec![];
    for vcpu in 0..module.n {
        for item in items() {
            let c = sums.counts(vcpu, item);
            let pending = u64::from(module.record(vcpu).has_pending(item));
            let counted = [c.requests, c.returns, c.merged, c.presented, c.handed_back];
            let [a, b, c, d, e] = counted;
            rows.push((vcpu, number(item), [a, b, c, d, e, pending]));
        }
    }
    rows.retain(|(_, _, numbers)| numbers.iter().any(|&number| number > 0));
    rows.sort();
    rows
}

/// Plays a list: the sums alone are looked at, after each event, and not what answers say of them.
fn differ_in(list: &[Event], gate: Gate, rules: Rules) -> bool {
    let (book, vmpl) = opened(list);
    let mut sums = Sums::new(book, vmpl, rules);
    let mut module = Module::refused();
    list.iter().any(|event| {
        let answer = gate(&mut module, &mut event.clone());
        sums.count(event, &answer).is_err() || all_meet(&sums, &module).is_err()
    })
}

/// Whether the sums of any generated list differ, at any event.
pub fn differ(gate: Gate, rules: Rules) -> bool {
    let lists = lists(6, 10_000);
    lists.iter().any(|list| differ_in(list, gate, rules))
}

/// The first fault that the whole check of the sums finds.
pub fn fault(gate: Gate, rules: Rules) -> Option<String> {
    let lists = lists(6, 10_000);
    lists.iter().find_map(|list| hold(list, gate, rules).err())
}
