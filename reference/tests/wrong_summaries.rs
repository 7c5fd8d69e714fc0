//! Gates that keep the byte of request A6 (02) by a wrong rule, and look in P only where it says. A comparison of lines must find
//! them: a bit that is missing comes to show in answers, one too many makes no answer wrong and shows in `state` alone.

use reference::events::{ask, step, Answer, Event, Shown};
use reference::generate::generate;
use reference::page::descriptor;
use reference::print;
use reference::set::VectorSet;
use reference::state::{Item, Module, Record};
use reference::trace::{read, Line};

/// One vCPU on both sides of an event, and its byte before it.
struct Change<'a> {
    event: &'a Event,
    answer: &'a Answer,
    /// The event names this vCPU.
    own: bool,
    vmpl: u32,
    was: &'a Record,
    now: &'a Record,
    byte: u8,
}

impl Change<'_> {
    fn came(&self) -> VectorSet {
        self.now.pending.without(&self.was.pending)
    }

    /// The bits of words that this event has emptied.
    fn emptied(&self) -> u8 {
        let gone = self.was.pending.without(&self.now.pending);
        gone.summary() & !self.now.pending.summary()
    }

    /// By the event alone, so that a wrong bit stays until something changes it.
    fn right(&self) -> u8 {
        (self.byte | self.came().summary()) & !self.emptied()
    }

    /// Without the bits that come with this event.
    fn none_new(&self) -> u8 {
        self.byte & !self.emptied()
    }

    /// With the bits that go with it.
    fn none_gone(&self) -> u8 {
        self.byte | self.came().summary()
    }
}

/// The byte after an event.
type Rule = fn(&Change) -> u8;

struct Gate {
    module: Module,
    bytes: Vec<u8>,
}

impl Gate {
    /// The module with what the bytes hide taken out of P.
    fn visible(&self) -> Module {
        let mut m = self.module.clone();
        for (record, byte) in m.records.iter_mut().zip(&self.bytes) {
            for v in record.pending.members() {
                if byte >> (v / 32) & 1 == 0 {
                    record.pending.take(v);
                }
            }
        }
        m
    }

    /// An entry sees what is marked; what is not stays as it is.
    fn answer(&mut self, event: &mut Event) -> Answer {
        if !matches!(event, Event::Entry { .. }) {
            return step(&mut self.module, event);
        }
        let mut seen = self.visible();
        let both = self.module.records.iter().zip(&seen.records);
        let hidden: Vec<VectorSet> = both
            .map(|(all, seen)| all.pending.without(&seen.pending))
            .collect();
        let answer = step(&mut seen, event);
        self.module = seen;
        for (record, hidden) in self.module.records.iter_mut().zip(&hidden) {
            record.pending = record.pending.joined(hidden);
        }
        answer
    }

    fn play(&mut self, event: &mut Event, rule: Rule) -> Answer {
        let before = self.module.clone();
        let written = event.clone();
        let answer = self.answer(event);
        if let Event::Start { .. } = event {
            self.bytes = vec![0; self.module.records.len()];
            return answer;
        }
        for (id, byte) in self.bytes.iter_mut().enumerate() {
            *byte = rule(&Change {
                event: &written,
                answer: &answer,
                own: written.vcpu() == Some(id as u32),
                vmpl: before.vmpl,
                was: &before.records[id],
                now: &self.module.records[id],
                byte: *byte,
            });
        }
        answer
    }
}

/// Whether an answer comes to differ, and whether a `state` line does.
fn differs(rule: Rule) -> (bool, bool) {
    let mut trace = Vec::new();
    generate(6, 20_000, &mut trace).unwrap();
    let mut theirs = Module::refused();
    let mut ours = Gate {
        module: Module::refused(),
        bytes: vec![],
    };
    let (mut answers, mut states) = (false, false);
    for line in trace.split(|&b| b == b'\n').map(read) {
        match line {
            Line::Ask(vcpu) => answers |= ask(&ours.visible(), vcpu) != ask(&theirs, vcpu),
            Line::State => {
                let right = theirs.records.iter().map(|r| r.pending.summary());
                states |= right.ne(ours.bytes.iter().copied());
            }
            Line::Event(event) => {
                let (mut one, mut other) = (event.clone(), event);
                let (a, b) = (ours.play(&mut one, rule), step(&mut theirs, &mut other));
                answers |= print::answer(&one, &a) != print::answer(&other, &b);
            }
            _ => {}
        }
    }
    (answers, states)
}

fn notice_sets_no_bit(c: &Change) -> u8 {
    match c.event {
        Event::Notice { .. } => c.none_new(),
        _ => c.right(),
    }
}

/// A level-sensitive vector is put into P without its bit.
fn level_sets_no_bit(c: &Change) -> u8 {
    match c.event {
        Event::Notice { .. } if c.now.pending_level != c.was.pending_level => c.none_new(),
        _ => c.right(),
    }
}

/// Of many vectors (bit 14) only the highest gets its bit.
fn one_bit_of_many(c: &Change) -> u8 {
    match (c.event, c.came().highest()) {
        (Event::Notice { .. }, Some(v)) => c.none_new() | 1 << (v / 32),
        _ => c.right(),
    }
}

/// The byte is made anew of what a notice brings.
fn notice_alone(c: &Change) -> u8 {
    match c.event {
        Event::Notice { .. } if !c.came().is_empty() => c.came().summary(),
        _ => c.right(),
    }
}

fn ipi_sets_no_bit_elsewhere(c: &Change) -> u8 {
    match c.event {
        Event::Call { .. } if !c.own => c.none_new(),
        _ => c.right(),
    }
}

fn ipi_to_itself_sets_no_bit(c: &Change) -> u8 {
    match c.event {
        Event::Call { .. } if c.own => c.none_new(),
        _ => c.right(),
    }
}

fn returned_sets_no_bit(c: &Change) -> u8 {
    match c.event {
        Event::NonDelivery { .. } => c.none_new(),
        _ => c.right(),
    }
}

/// Presenting takes the word's bit, though more is pending there.
fn presenting_takes_the_bit(c: &Change) -> u8 {
    match (c.own, c.answer) {
        (true, Answer::Entry(Ok(Shown::Presented(Item::Vector(v))))) => {
            c.right() & !(1 << (v / 32))
        }
        _ => c.right(),
    }
}

/// Any accepted entry makes the byte 0.
fn entry_takes_all_bits(c: &Change) -> u8 {
    match (c.own, c.answer) {
        (true, Answer::Entry(Ok(_))) => 0,
        _ => c.right(),
    }
}

/// A vector that is taken out of the allowed set takes its word's bit along.
fn permission_takes_bits(c: &Change) -> u8 {
    let lost = c.was.allowed.without(&c.now.allowed);
    match c.event {
        Event::Call { call: 4, .. } | Event::Allow { .. } => c.right() & !lost.summary(),
        _ => c.right(),
    }
}

fn seven_words(c: &Change) -> u8 {
    c.right() & 0x7F
}

fn words_from_32(c: &Change) -> u8 {
    c.right() & 0xFE
}

#[test]
fn missing_bits_change_answers() {
    assert_eq!(differs(|c| c.right()), (false, false));
    for (name, rule) in [
        ("notice_sets_no_bit", notice_sets_no_bit as Rule),
        ("level_sets_no_bit", level_sets_no_bit),
        ("one_bit_of_many", one_bit_of_many),
        ("notice_alone", notice_alone),
        ("ipi_sets_no_bit_elsewhere", ipi_sets_no_bit_elsewhere),
        ("ipi_to_itself_sets_no_bit", ipi_to_itself_sets_no_bit),
        ("returned_sets_no_bit", returned_sets_no_bit),
        ("presenting_takes_the_bit", presenting_takes_the_bit),
        ("entry_takes_all_bits", entry_takes_all_bits),
        ("permission_takes_bits", permission_takes_bits),
        ("seven_words", seven_words),
        ("words_from_32", words_from_32),
    ] {
        assert_eq!(differs(rule), (true, true), "{name}");
    }
}

/// The bit of a word that became empty stays.
fn presenting_leaves_the_bit(c: &Change) -> u8 {
    match c.event {
        Event::Entry { .. } => c.none_gone(),
        _ => c.right(),
    }
}

fn handed_back_leaves_bits(c: &Change) -> u8 {
    match c.event {
        Event::HandBack { .. } => c.none_gone(),
        _ => c.right(),
    }
}

/// The single vector of a descriptor gets its bit before it is asked whether it is allowed.
fn marks_what_is_not_admitted(c: &Change) -> u8 {
    match (c.event, c.answer) {
        (Event::Notice { page, .. }, Answer::Notice(Ok(_))) if c.own => {
            c.right() | 1 << (page[descriptor(c.vmpl)] / 32)
        }
        _ => c.right(),
    }
}

/// The NMI and the machine check as vectors 2 and 18, in word 0.
fn marks_the_two_marks(c: &Change) -> u8 {
    c.right() | u8::from(c.now.nmi || c.now.machine_check)
}

fn marks_what_is_in_service(c: &Change) -> u8 {
    c.right() | c.now.service.summary()
}

#[test]
fn bits_too_many_show_in_state() {
    for (name, rule) in [
        (
            "presenting_leaves_the_bit",
            presenting_leaves_the_bit as Rule,
        ),
        ("handed_back_leaves_bits", handed_back_leaves_bits),
        ("marks_what_is_not_admitted", marks_what_is_not_admitted),
        ("marks_the_two_marks", marks_the_two_marks),
        ("marks_what_is_in_service", marks_what_is_in_service),
    ] {
        assert_eq!(differs(rule), (false, true), "{name}");
    }
}
