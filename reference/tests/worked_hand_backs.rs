//! The cases 14.96 and 14.97: which mistake a refused hand-back was (02, A8).

mod common;

use common::hand_backs::code;
use common::{fresh, page, DEREGISTER, REGISTER};
use reference::calls::call;
use reference::codes::*;
use reference::events::{entry, hand_back, step, Answer, Event, Shown};
use reference::play::play_text;
use reference::state::{Module, Phase};

/// The ways in which IF and shadow can stand.
const FLAGS: [(bool, bool); 4] = [(false, false), (true, false), (false, true), (true, true)];

/// n 2, L 1, vCPU 0 leaving by its own call.
fn leaving() -> Module {
    let mut m = fresh(2, 1);
    assert_eq!(call(&mut m, 0, 1, DEREGISTER, 0), Ok(0));
    assert_eq!(m.records[0].phase, Phase::Leaving);
    m
}

/// vCPU 0 has left by an accepted hand-back.
fn left() -> Module {
    let mut m = leaving();
    let accepted = hand_back(&mut m, 0, &mut page(&[]), true, false);
    assert_eq!(accepted, Ok(65_537));
    m
}

/// A refusal of a hand-back with a page of zeros, which changes nothing.
fn refused(m: &Module, vcpu: u32, length: usize, code: Code) {
    for (if_set, shadow) in FLAGS {
        let (mut after, mut page) = (m.clone(), vec![0; length]);
        let answer = hand_back(&mut after, vcpu, &mut page, if_set, shadow);
        assert_eq!(answer, Err(code), "{length} bytes");
        assert_eq!((after, page), (m.clone(), vec![0; length]));
    }
}

/// 14.96
#[test]
fn case_14_96_hand_backs() {
    for length in [256, 255, 0] {
        refused(&fresh(2, 1), 0, length, 3);
        refused(&left(), 0, length, 7);
    }
    refused(&leaving(), 0, 255, 2);
    for (if_set, shadow) in FLAGS {
        let result = 65_536 + 2 * u32::from(shadow) + u32::from(if_set);
        for length in [256, 257] {
            let mut page = vec![0; length];
            let answer = hand_back(&mut leaving(), 0, &mut page, if_set, shadow);
            assert_eq!(answer, Ok(result));
        }
    }
    refused(&left(), 2, 0, 1);
    refused(&left(), 1, 256, 3);
    let mut unregistered = fresh(2, 1);
    unregistered.count = 0;
    refused(&unregistered, 0, 256, 3);
    let answer = entry(&mut unregistered, 0, true, false, false);
    assert_eq!(answer, Ok(Shown::Nothing));
}

fn allow(values: usize, places: usize) -> Event {
    Event::Allow {
        vcpu: 0,
        values: vec![0x141; values],
        codes: vec![0; places],
    }
}

fn guest_call(call: u32, ecx: u32) -> Event {
    Event::Call {
        vcpu: 0,
        call,
        ecx,
        rdx: 0,
    }
}

/// 14.96: the other events on the vCPU that has left.
#[test]
fn case_14_96_other_events() {
    let of_14_4 = page(&[(3, 1), (64, 0x41)]);
    let notice = |page| Event::Notice { vcpu: 0, page };
    let entry = Event::Entry {
        vcpu: 0,
        if_set: true,
        shadow: false,
        blocked: false,
    };
    for event in [
        notice(of_14_4),
        notice(vec![]),
        guest_call(5, 0),
        guest_call(1, REGISTER),
        entry,
        Event::NonDelivery { vcpu: 0 },
        allow(0, 0),
        allow(257, 0),
    ] {
        let (mut m, mut written) = (left(), event.clone());
        assert_eq!(code(step(&mut m, &mut written)), 0x8000_0001, "{event}");
        assert_eq!((m, written), (left(), event));
    }
}

/// The events of 14.97 as a trace.
const LIST: &str = "start 2 1
    handback 0 1 0 256
    handback 0 1 0 0
    call 0 1 1 0
    handback 1 1 0 256
    handback 0 1 0 255
    handback 0 1 0 256
    handback 0 1 0 256 64=0x41
    handback 0 1 0 0
    notice 0 256 3=1 64=0x41
    call 0 1 2 0
    call 1 1 0 0
    handback 0 1 0 256
    handback 1 0 1 256
    handback 1 0 1 256
    handback 2 0 1 0";

/// 14.97, as it is printed: each page stays as it was.
#[test]
fn case_14_97() {
    assert_eq!(
        play_text(LIST.as_bytes()).lines().collect::<Vec<&str>>(),
        [
            "start ok",
            "handback refused 0x3 page",
            "handback refused 0x3 page",
            "call ok 0x0",
            "handback refused 0x3 page",
            "handback refused 0x2 page",
            "handback ok 0x10001 page",
            "handback refused 0x7 page 0x40=0x41",
            "handback refused 0x7 page",
            "notice refused 0x80000001 page 0x3=0x1 0x40=0x41",
            "call refused 0x80000001",
            "call ok 0x0",
            "handback refused 0x7 page",
            "handback ok 0x10002 page",
            "handback refused 0x7 page",
            "handback refused 0x1 page",
        ]
    );
}

/// 14.97 by numbers: the codes by their names, and the results.
#[test]
fn case_14_97_answers() {
    let mut m = Module::refused();
    let mut told = vec![];
    for mut event in common::events(LIST) {
        let written = event.clone();
        match step(&mut m, &mut event) {
            Answer::HandBack(answer) => told.push(answer),
            Answer::Call(answer) => told.push(answer.map(|value| value as u32)),
            Answer::Notice(answer) => told.push(answer.map(|admission| admission.new)),
            _ => continue,
        }
        assert_eq!(event, written, "its page stays");
    }
    assert_eq!(
        told,
        [
            Err(STILL_ACTIVE),
            Err(STILL_ACTIVE),
            Ok(0),
            Err(STILL_ACTIVE),
            Err(SHORT_PAGE),
            Ok(65_537),
            Err(HAS_LEFT),
            Err(HAS_LEFT),
            Err(NOT_ACTIVE),
            Err(NOT_ACTIVE),
            Ok(0),
            Err(HAS_LEFT),
            Ok(65_538),
            Err(HAS_LEFT),
            Err(UNKNOWN_VCPU),
        ]
    );
}
