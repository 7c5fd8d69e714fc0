//! The codes of hand-backs, and of other events on a vCPU that has left, as tables that any gate
//! can be held against.

use reference::answers::require;
use reference::codes::Code;
use reference::demand3::Gate;
use reference::events::{Answer, Event};
use reference::state::{Item, Module, Phase};

use super::{fresh, page, set};

const LENGTHS: [usize; 4] = [0, 255, 256, 300];

/// 11.17: a code for each of these lengths, 0 where the hand-back is accepted.
const CODES: [(Phase, [Code; 4]); 3] = [
    (Phase::Active, [3, 3, 3, 3]),
    (Phase::Leaving, [2, 2, 0, 0]),
    (Phase::Left, [7, 7, 7, 7]),
];

/// Every vCPU is in this phase, with something in each set: no code hangs on these.
fn busy(n: u32, vmpl: u32, count: u8, phase: Phase) -> Module {
    let mut m = fresh(n, vmpl);
    m.count = count;
    for record in &mut m.records {
        record.phase = phase;
        record.allowed = set(&[2, 0x41]);
        record.pending = set(&[0x41, 0x61]);
        record.pending_level = set(&[0x61]);
        record.service = set(&[0x52]);
        record.nmi = true;
        record.tpr = 0x20;
        record.flight = (phase == Phase::Active).then_some(Item::Vector(0x52));
    }
    m
}

/// The same with nothing in any set.
fn bare(n: u32, vmpl: u32, count: u8, phase: Phase) -> Module {
    let mut m = fresh(n, vmpl);
    m.count = count;
    for record in &mut m.records {
        record.phase = phase;
    }
    m
}

/// Against a code, 0 where it must be accepted. What is refused changes neither module, nor page,
/// nor second list (11.19).
fn answered(gate: Gate, m: &Module, event: &Event, code: Code) -> Result<(), String> {
    let (mut after, mut written) = (m.clone(), event.clone());
    let answer = gate(&mut after, &mut written);
    let told = answer.refusal().unwrap_or(0);
    let whole = told == 0 || (after == *m && written == *event);
    require(
        told == code && whole,
        &format!("{event} on {:?}: {answer:?}", m.records.first()),
    )
}

/// With IF and shadow in each way, and with a page of zeros and one of ones.
fn hand_backs(vcpu: u32, length: usize) -> Vec<Event> {
    let mut events = vec![];
    for flags in 0..8 {
        let [if_set, shadow, ones] = [1, 2, 4].map(|bit| flags & bit != 0);
        events.push(Event::HandBack {
            vcpu,
            if_set,
            shadow,
            page: vec![if ones { 0xFF } else { 0 }; length],
        });
    }
    events
}

/// The codes of hand-backs of some vCPUs, by length.
fn by_length(gate: Gate, m: &Module, vcpus: &[u32], codes: [Code; 4]) -> Result<(), String> {
    for &vcpu in vcpus {
        for (length, code) in LENGTHS.into_iter().zip(codes) {
            for event in hand_backs(vcpu, length) {
                answered(gate, m, &event, code)?;
            }
        }
    }
    Ok(())
}

/// 10.2, 11.1, 11.3, 11.17, 11.23, 13.101, 13.102: phases by lengths on vCPUs below n, and code 1
/// first at n and above, whatever phase the others are in. The count does not matter: with none
/// registered an active vCPU still gets 3.
pub fn table(gate: Gate) -> Result<(), String> {
    for (phase, codes) in CODES {
        for (n, count) in [(1, 0), (1, 1), (3, 0), (3, 255), (32, 1), (32, 0)] {
            for vmpl in 1..=3 {
                for make in [busy, bare] {
                    let m = make(n, vmpl, count, phase);
                    by_length(gate, &m, &[0, n / 2, n - 1], codes)?;
                    let above = [n, n + 1, 32, 256, 256 + n - 1, 0x1_0000, u32::MAX];
                    by_length(gate, &m, &above, [1; 4])?;
                }
            }
        }
    }
    by_length(gate, &Module::refused(), &[0, 1, 31, 32, u32::MAX], [1; 4])
}

/// Every kind but a start and a hand-back, each also with what a later check would refuse.
fn other_events(vcpu: u32) -> Vec<Event> {
    let mut events = vec![Event::NonDelivery { vcpu }];
    let announced = page(&[(3, 1), (64, 0x41)]);
    for page in [announced, page(&[]), vec![0xFF; 300], vec![0; 255], vec![]] {
        events.push(Event::Notice { vcpu, page });
    }
    for flags in 0..8 {
        let [if_set, shadow, blocked] = [1, 2, 4].map(|bit| flags & bit != 0);
        events.push(Event::Entry {
            vcpu,
            if_set,
            shadow,
            blocked,
        });
    }
    events.extend(calls(vcpu));
    events.extend(lists(vcpu));
    events
}

fn calls(vcpu: u32) -> Vec<Event> {
    let mut events = vec![];
    for call in [0, 1, 2, 3, 4, 5, u32::MAX] {
        for ecx in [0, 1, 2, 3, 0x141, 0x7FF, 0x802, 0x808, 0x80B, u32::MAX] {
            let rdx = if ecx == 0x7FF { u64::MAX } else { 0 };
            events.push(Event::Call {
                vcpu,
                call,
                ecx,
                rdx,
            });
        }
    }
    events
}

/// By the number of values and of places in the second list.
fn lists(vcpu: u32) -> Vec<Event> {
    let sizes = [
        (0, 0),
        (0, 2),
        (1, 1),
        (1, 0),
        (256, 256),
        (257, 257),
        (257, 0),
    ];
    let list = |(values, places)| Event::Allow {
        vcpu,
        values: vec![0x141; values],
        codes: vec![9; places],
    };
    sizes.into_iter().map(list).collect()
}

/// 11.6, 11.24, 13.102: all of them get 0x80000001, where the vCPU is leaving as where it has left.
pub fn others(gate: Gate) -> Result<(), String> {
    for phase in [Phase::Leaving, Phase::Left] {
        for count in [0, 1, 255] {
            for make in [busy, bare] {
                let m = make(2, 1, count, phase);
                for event in [0, 1].into_iter().flat_map(other_events) {
                    answered(gate, &m, &event, 0x8000_0001)?;
                }
            }
        }
    }
    Ok(())
}

/// The code of an answer that must be a refusal.
pub fn code(answer: Answer) -> Code {
    answer.refusal().expect("it is refused")
}
