//! Lists of ECX values (02, A5): what they leave, their codes, and what is refused.

mod common;

use common::*;
use reference::calls::call;
use reference::codes::*;
use reference::demand3::{bounded, played};
use reference::events::{allow, entry, non_delivery, notice, step, Event, Shown};
use reference::set::VectorSet;
use reference::state::{Item, Module, Phase};

/// What stands in a second list before the event.
const FILL: u32 = 0xAAAA_AAAA;

/// A list on vCPU 0 with a second list so long: the answer, and the second list after it.
fn listed(m: &mut Module, values: &[u32], length: usize) -> (Result<u32, Code>, Vec<u32>) {
    listed_on(m, 0, values, length)
}

fn listed_on(
    m: &mut Module,
    vcpu: u32,
    values: &[u32],
    length: usize,
) -> (Result<u32, Code>, Vec<u32>) {
    let mut codes = vec![FILL; length];
    let answer = allow(m, vcpu, values, &mut codes);
    (answer, codes)
}

/// The list has this code, and neither module nor second list changes.
fn refused(m: &Module, vcpu: u32, values: &[u32], length: usize, code: Code) {
    let mut after = m.clone();
    let answer = listed_on(&mut after, vcpu, values, length);
    assert_eq!(answer, (Err(code), vec![FILL; length]));
    assert_eq!(after, *m);
}

/// vCPU 0 of two with 0x41 presented and in flight, 0x51 pending, both allowed.
fn in_flight() -> Module {
    let mut m = allowing(&[0x41, 0x51]);
    notice(&mut m, 0, &mut page(&[(3, 1), (64, 0x41)])).unwrap();
    entry(&mut m, 0, true, false, false).unwrap();
    notice(&mut m, 0, &mut page(&[(3, 1), (64, 0x51)])).unwrap();
    assert_eq!(m.records[0].flight, Some(Item::Vector(0x41)));
    m
}

#[test]
fn every_value_has_its_code() {
    let mut m = allowing(&[0x61]);
    let (answer, codes) = listed(&mut m, &[0x102, 0x112, 0x11F, 0x1FF, 0x061], 5);
    assert_eq!((answer, codes), (Ok(0), vec![0; 5]));
    assert_eq!(m, allowing(&[2, 18, 31, 255]));
}

#[test]
fn the_list_goes_on_behind_a_refused_value() {
    let mut m = fresh(2, 1);
    let values = [0x11E, 0x141, 0x200, 0x113, 0x151, u32::MAX, 0];
    let (answer, codes) = listed(&mut m, &values, 7);
    let bad = BAD_VALUE;
    assert_eq!(answer, Ok(0));
    assert_eq!(codes, [bad, 0, bad, bad, 0, bad, bad]);
    assert_eq!(m, allowing(&[0x41, 0x51]));
}

/// The last value that is accepted for a vector decides.
#[test]
fn values_are_taken_in_order() {
    for (values, left) in [
        (&[0x141, 0x041][..], &[][..]),
        (&[0x041, 0x141], &[0x41]),
        (&[0x141, 0x041, 0x141], &[0x41]),
        (&[0x141, 0x041, 0x241], &[]),
        (&[0x141, 0x141, 0x151, 0x041], &[0x51]),
    ] {
        let mut m = fresh(2, 1);
        let (answer, codes) = listed(&mut m, values, values.len());
        assert_eq!(answer, Ok(0));
        let code = |ecx| if ecx == 0x241 { BAD_VALUE } else { 0 };
        let expected: Vec<u32> = values.iter().map(|&ecx| code(ecx)).collect();
        assert_eq!(codes, expected);
        assert_eq!(m, allowing(left));
    }
}

/// Every ECX below 1,024, four lists of 256, against so many calls 4.
#[test]
fn a_list_is_its_single_calls() {
    let (mut one, mut other) = (in_flight(), in_flight());
    for first in [0, 256, 512, 768] {
        let values: Vec<u32> = (first..first + 256).rev().collect();
        let (answer, codes) = listed(&mut one, &values, 256);
        assert_eq!(answer, Ok(0));
        for (&ecx, code) in values.iter().zip(codes) {
            let single = call(&mut other, 0, 4, ecx, u64::MAX);
            assert_eq!(single.err().unwrap_or(0), code, "{ecx:#x}");
        }
        assert_eq!(one, other);
    }
    assert_eq!(one.records[0].allowed.members().len(), 227);
}

#[test]
fn places_past_the_count_stay() {
    let mut m = fresh(2, 1);
    let (answer, codes) = listed(&mut m, &[0x141, 0x11E], 5);
    assert_eq!(answer, Ok(0));
    assert_eq!(codes, [0, BAD_VALUE, FILL, FILL, FILL]);
    let (answer, codes) = listed(&mut m, &[], 3);
    assert_eq!((answer, codes), (Ok(0), vec![FILL; 3]));
    assert_eq!(m, allowing(&[0x41]));
}

#[test]
fn at_most_256_values() {
    let values: Vec<u32> = (0..300).map(|k| 0x11F + k % 0xE1).collect();
    for count in [255, 256] {
        let mut m = fresh(2, 1);
        let (answer, codes) = listed(&mut m, &values[..count], count);
        assert_eq!((answer, codes), (Ok(0), vec![0; count]));
        let all: Vec<usize> = (31..=255).collect();
        assert_eq!(m, allowing(&all));
    }
    for count in [257, 258, 300] {
        for length in [0, 256, count, 1024] {
            refused(&fresh(2, 1), 0, &values[..count], length, BAD_LIST);
        }
    }
}

/// The second list may be longer than 256, and longer than the first by any number.
#[test]
fn a_longer_second_list() {
    for length in [1, 2, 256, 257, 1024] {
        let mut m = fresh(2, 1);
        let (answer, codes) = listed(&mut m, &[0x141], length);
        assert_eq!((answer, codes[0]), (Ok(0), 0));
        assert_eq!(codes[1..], vec![FILL; length - 1]);
        assert_eq!(m, allowing(&[0x41]));
    }
}

#[test]
fn a_shorter_second_list() {
    let values: Vec<u32> = (0x120..0x220).collect();
    let m = in_flight();
    for count in [1, 2, 255, 256] {
        refused(&m, 0, &values[..count], count - 1, BAD_LIST);
        refused(&m, 0, &values[..count], 0, BAD_LIST);
    }
}

#[test]
fn the_vcpu_and_its_phase_come_first() {
    let mut m = fresh(3, 1);
    m.records[1].phase = Phase::Leaving;
    m.records[2].phase = Phase::Left;
    let long = vec![0x141; 257];
    for (values, length) in [(&long[..], 257), (&long[..3], 2), (&long[..3], 3), (&[], 0)] {
        for vcpu in [3, 32, 256, u32::MAX] {
            refused(&m, vcpu, values, length, UNKNOWN_VCPU);
        }
        refused(&m, 1, values, length, NOT_ACTIVE);
        refused(&m, 2, values, length, NOT_ACTIVE);
        refused(&Module::refused(), 0, values, length, UNKNOWN_VCPU);
    }
    refused(&m, 0, &long, 257, BAD_LIST);
    refused(&m, 0, &long[..3], 2, BAD_LIST);
}

/// Accepted, and nothing changes: there is no value to be accepted.
#[test]
fn an_empty_list() {
    for length in [0, 1, 256] {
        let mut m = in_flight();
        let (answer, codes) = listed(&mut m, &[], length);
        assert_eq!((answer, codes), (Ok(0), vec![FILL; length]));
        assert_eq!(m, in_flight());
        assert_eq!(non_delivery(&mut m, 0), Ok(0));
    }
}

#[test]
fn refused_values_leave_what_is_in_flight() {
    let mut m = in_flight();
    let (answer, codes) = listed(&mut m, &[0x11E, 0x241, 0], 3);
    assert_eq!((answer, codes), (Ok(0), vec![BAD_VALUE; 3]));
    assert_eq!(m, in_flight());
    assert_eq!(non_delivery(&mut m, 0), Ok(0));
    assert_eq!(
        entry(&mut m, 0, true, false, false),
        Ok(Shown::Presented(Item::Vector(0x51)))
    );
}

/// Wherever it stands, and also where it changes nothing in A; the ISR keeps the vector.
#[test]
fn one_accepted_value_forgets_what_is_in_flight() {
    for values in [
        &[0x141][..],
        &[0x141, 0x11E, 0x241],
        &[0x11E, 0x141, 0x241],
        &[0x11E, 0x241, 0x141],
    ] {
        let mut m = in_flight();
        assert_eq!(listed(&mut m, values, values.len()).0, Ok(0));
        let mut forgotten = in_flight();
        forgotten.records[0].flight = None;
        assert_eq!(m, forgotten);
        assert_eq!(non_delivery(&mut m, 0), Err(NOTHING_IN_FLIGHT));
    }
}

/// Every kind of item in flight.
#[test]
fn any_item_in_flight() {
    for item in [Item::MachineCheck, Item::Nmi, Item::Vector(0x41)] {
        for (values, after) in [
            (&[][..], Some(item)),
            (&[0x11E], Some(item)),
            (&[0x11E, 0x02], None),
        ] {
            let mut m = fresh(2, 1);
            m.records[0].flight = Some(item);
            assert_eq!(listed(&mut m, values, values.len()).0, Ok(0));
            assert_eq!(m.records[0].flight, after);
        }
    }
}

/// Of the module only A and what is in flight change, and only on its vCPU.
#[test]
fn what_else_stays() {
    let mut m = in_flight();
    m.records[1] = m.records[0].clone();
    let mut expected = m.clone();
    expected.records[1].allowed = set(&[0x41, 0x52]);
    expected.records[1].flight = None;
    let (answer, _) = listed_on(&mut m, 1, &[0x051, 0x152], 2);
    assert_eq!(answer, Ok(0));
    assert_eq!(m, expected);
    // What was taken out is still pending, and is presented.
    assert_eq!(
        entry(&mut m, 1, true, false, false),
        Ok(Shown::Presented(Item::Vector(0x51)))
    );
}

/// What a list has put in lets a notice in, and what it has taken out does not.
#[test]
fn notices_after_a_list() {
    let mut m = allowing(&[0x51]);
    listed(&mut m, &[0x141, 0x051, 0x11E], 3).0.unwrap();
    let mut ask = |vector| notice(&mut m, 0, &mut page(&[(3, 1), (64, vector)]));
    assert_eq!(ask(0x41), counted(1, 0));
    assert_eq!(ask(0x51), counted(0, 0));
    assert_eq!(ask(0x1E), counted(0, 0));
}

#[test]
fn codes_do_not_hang_on_what_stood_there() {
    for fill in [0, BAD_VALUE, u32::MAX] {
        let mut codes = [fill; 2];
        assert_eq!(
            allow(&mut fresh(2, 1), 0, &[0x11E, 0x141], &mut codes),
            Ok(0)
        );
        assert_eq!(codes, [BAD_VALUE, 0]);
    }
}

fn list_event(vcpu: u32, values: &[u32], length: usize) -> Event {
    Event::Allow {
        vcpu,
        values: values.to_vec(),
        codes: vec![FILL; length],
    }
}

/// The book follows accepted lists value by value and no others: in the end it is the module's.
#[test]
fn the_book_follows() {
    let long: Vec<u32> = (0x11F..0x220).collect();
    let list = [
        Event::Start { n: 2, vmpl: 1 },
        list_event(0, &long[..200], 200),
        list_event(0, &[0x041, 0x11E, 0x151, 0x051], 4),
        list_event(1, &long, 257),
        list_event(1, &long[..2], 1),
        list_event(2, &long[..2], 2),
        list_event(1, &[0x161], 3),
    ];
    let end = played(&list, step);
    bounded(&list, &end).unwrap();
    let mut expected: Vec<usize> = (31..231).collect();
    expected.retain(|&v| v != 0x41 && v != 0x51);
    let allowed = |vcpu: usize| end.module.records[vcpu].allowed.clone();
    assert_eq!(allowed(0), VectorSet::of(&expected));
    assert_eq!(allowed(1), set(&[0x61]));
}

/// Isolation compares the second lists as well as the answers.
#[test]
fn second_lists_are_results() {
    let list = [
        Event::Start { n: 1, vmpl: 1 },
        list_event(0, &[0x141, 0x11E], 3),
        list_event(0, &[0x141, 0x11E], 1),
    ];
    let end = played(&list, step);
    assert_eq!(end.codes, [vec![0, BAD_VALUE, FILL], vec![FILL]]);
}
