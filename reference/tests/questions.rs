//! The question of request A6 (02), what it hangs on and what it leaves alone; and the byte that `state` shows.

mod common;

use common::*;
use reference::calls::call;
use reference::codes::{NOTHING_IN_FLIGHT, NOT_ACTIVE, UNKNOWN_VCPU};
use reference::events::{ask, entry, hand_back, non_delivery, notice, Shown};
use reference::generate::lists;
use reference::play::play_text;
use reference::set::VectorSet;
use reference::state::{Item, Module, Phase};

/// vCPU 0 of two with everything allowed and these vectors pending.
fn pending(vectors: &[usize]) -> Module {
    let mut m = fresh(2, 1);
    m.records[0].allowed = VectorSet::all();
    m.records[0].pending = set(vectors);
    m
}

/// The answer for vCPU 0, and that an entry with IF and neither shadow nor NMI-blocked says the same.
fn asked(m: &Module) -> bool {
    let answer = ask(m, 0);
    let shown = entry(&mut m.clone(), 0, true, false, false);
    assert_eq!(answer, matches!(shown, Ok(Shown::Presented(_))));
    answer
}

#[test]
fn nothing_pending_is_no() {
    assert!(!asked(&fresh(1, 1)));
    assert!(!asked(&pending(&[])));
    assert!(!ask(&pending(&[0x41]), 1));
}

#[test]
fn a_vector_above_the_priority_is_yes() {
    for v in [31, 32, 0x41, 0xFF] {
        assert!(asked(&pending(&[v])), "{v:#x}");
    }
    for (tpr, v, yes) in [
        (0x3F, 0x40, true),
        (0x40, 0x4F, false),
        (0x4F, 0x41, false),
        (0xF0, 0xFF, false),
        (0x0F, 31, true),
        (0x10, 31, false),
    ] {
        let mut m = pending(&[v]);
        m.records[0].tpr = tpr;
        assert_eq!(asked(&m), yes, "{tpr:#x} {v:#x}");
    }
}

#[test]
fn a_vector_in_service_holds_its_class_and_those_below() {
    for (serving, v, yes) in [
        (0x41, 0x4F, false),
        (0x4F, 0x41, false),
        (0x51, 0x41, false),
        (0x41, 0x51, true),
    ] {
        let mut m = pending(&[v]);
        m.records[0].service = set(&[serving]);
        assert_eq!(asked(&m), yes, "{serving:#x} {v:#x}");
    }
}

/// The highest pending vector decides, in whatever word it is.
#[test]
fn many_words() {
    let mut m = pending(&[31, 0x41, 0x61, 0xF1]);
    assert_eq!(m.records[0].pending.summary(), 0x8D);
    m.records[0].tpr = 0xE0;
    assert!(asked(&m));
    m.records[0].pending.take(0xF1);
    assert!(!asked(&m));
    m.records[0].tpr = 0x50;
    assert!(asked(&m));
}

/// Neither mark is asked for the priority, and neither is in P.
#[test]
fn the_two_marks_are_yes() {
    for machine_check in [false, true] {
        let mut m = pending(&[0x41]);
        m.records[0].tpr = 0xFF;
        m.records[0].service = set(&[0xFF]);
        m.records[0].nmi = !machine_check;
        m.records[0].machine_check = machine_check;
        assert!(asked(&m));
        m.records[0].pending = set(&[]);
        m.records[0].allowed = set(&[]);
        assert!(asked(&m));
        assert_eq!(m.records[0].pending.summary(), 0);
    }
}

/// What held an entry back a moment ago is no matter: the question is about an entry that nothing holds.
#[test]
fn an_earlier_entry_holds_nothing() {
    let mut m = pending(&[]);
    m.records[0].nmi = true;
    assert_eq!(entry(&mut m, 0, true, false, true), Ok(Shown::Nothing));
    assert!(asked(&m));
    assert_eq!(entry(&mut m, 0, true, true, false), Ok(Shown::Nothing));
    assert!(asked(&m));
    let mut m = pending(&[0x41]);
    for (if_set, shadow) in [(false, false), (true, true)] {
        let shown = entry(&mut m, 0, if_set, shadow, false);
        assert_eq!(shown, Ok(Shown::Window(0x41)));
        assert!(asked(&m));
    }
}

/// A vector that was taken out of the allowed set is presented all the same (5.19).
#[test]
fn the_allowed_set_is_not_asked() {
    let mut m = pending(&[0x41]);
    call(&mut m, 0, 4, 0x041, 0).unwrap();
    assert!(asked(&m));
}

#[test]
fn unknown_vcpus_are_no() {
    let m = pending(&[0x41]);
    assert!(ask(&m, 0));
    for vcpu in [2, 31, 32, 256, 0x1_0000, 0x8000_0000, u32::MAX] {
        assert!(!ask(&m, vcpu), "{vcpu:#x}");
        let entered = entry(&mut m.clone(), vcpu, true, false, false);
        assert_eq!(entered, Err(UNKNOWN_VCPU));
    }
    assert!(!ask(&Module::refused(), 0));
}

#[test]
fn leaving_and_left_are_no() {
    let mut m = pending(&[0x41, 0xF1]);
    m.records[0].nmi = true;
    m.records[0].machine_check = true;
    call(&mut m, 0, 1, DEREGISTER, 0).unwrap();
    assert_eq!(m.records[0].phase, Phase::Leaving);
    assert!(!asked(&m));
    assert_eq!(m.records[0].pending.summary(), 0x84);
    let late = entry(&mut m.clone(), 0, true, false, false);
    assert_eq!(late, Err(NOT_ACTIVE));
    hand_back(&mut m, 0, &mut page(&[]), true, false).unwrap();
    assert_eq!(m.records[0].phase, Phase::Left);
    assert!(!asked(&m));
    assert_eq!(m.records[0].pending.summary(), 0);
    // From any module value: no again, whatever a left vCPU has.
    m.records[0].pending = set(&[0x41]);
    assert!(!asked(&m));
}

/// It is no event: what is in flight is there afterwards, and can be returned.
#[test]
fn what_is_in_flight_stays() {
    for item in [Item::Vector(0x41), Item::Nmi, Item::MachineCheck] {
        let mut m = pending(&[]);
        m.records[0].add_pending(item);
        let shown = entry(&mut m, 0, true, false, false);
        assert_eq!(shown, Ok(Shown::Presented(item)));
        let before = m.clone();
        assert!(!ask(&m, 0));
        notice(&mut m, 0, &mut page(&[(3, 1), (64, 0x51)])).unwrap();
        assert!(ask(&m, 0));
        assert_eq!(m.records[0].flight, before.records[0].flight);
        assert_eq!(non_delivery(&mut m, 0), Ok(0));
        assert!(m.records[0].has_pending(item));
        assert!(ask(&m, 0));
        assert_eq!(non_delivery(&mut m, 0), Err(NOTHING_IN_FLIGHT));
    }
}

/// The lines of a trace are the same whatever questions stand among them.
#[test]
fn a_question_changes_no_other_line() {
    let mut trace = String::from("ask 0\n");
    let mut plain = String::new();
    for event in lists(11, 3_000).into_iter().flatten() {
        let vcpu = event.vcpu().unwrap_or(0);
        trace += &format!("{event}\nask {vcpu}\nask 1\nask 77\n");
        plain += &format!("{event}\n");
    }
    let output = play_text((trace + "state\n").as_bytes());
    let others: Vec<&str> = output.lines().filter(|l| !l.starts_with("ask ")).collect();
    let expected = play_text((plain + "state\n").as_bytes());
    assert_eq!(others, expected.lines().collect::<Vec<&str>>());
    assert_eq!(output.lines().count(), others.len() + 9_001);
}

/// Bit k of the byte for each member of word k, and for no other.
#[test]
fn the_byte() {
    for v in 0..256 {
        assert_eq!(set(&[v]).summary(), 1 << (v / 32), "{v:#x}");
    }
    assert_eq!(VectorSet::empty().summary(), 0);
    assert_eq!(VectorSet::all().summary(), 0xFF);
    assert_eq!(set(&[31, 32, 63, 224, 255]).summary(), 0x83);
}
