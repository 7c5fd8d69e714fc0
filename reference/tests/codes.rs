//! Kinds and values of registers, legal ICR values, codes and their order (sections 6, 7 and 11).

mod common;

use std::collections::BTreeSet;

use common::hand_backs::{others, table};
use common::*;
use reference::calls::call;
use reference::codes::*;
use reference::events::{allow, entry, hand_back, non_delivery, notice, step, Answer, Event};
use reference::generate::lists;
use reference::registers::{kind, Kind};
use reference::state::{Module, Phase};

/// 6.1 to 6.13
#[test]
fn the_table_of_kinds() {
    let mut readable = vec![0x802, 0x808, 0x80A, 0x80D, 0x830];
    readable.extend(0x810..=0x827);
    let writable = [0x808, 0x80B, 0x830, 0x83F];
    for register in (0x7F0..=0x910).chain([0, 2, 8, 0x1_0808, u32::MAX]) {
        let expected = match (readable.contains(&register), writable.contains(&register)) {
            (true, true) => Kind::Both,
            (true, false) => Kind::Read,
            (false, true) => Kind::Write,
            (false, false) => Kind::None,
        };
        assert_eq!(kind(register), expected, "{register:#x}");
    }
}

/// 6.15, 11.8, 11.9
#[test]
fn the_codes_of_the_kinds() {
    for register in 0x7FF..=0x900 {
        let mut m = fresh(2, 1);
        let (reading, writing) = match kind(register) {
            Kind::None => (Err(BAD_REGISTER), Err(BAD_REGISTER)),
            Kind::Read => (Ok(()), Err(BAD_VALUE)),
            Kind::Write => (Err(BAD_REGISTER), Err(BAD_VALUE)),
            Kind::Both => (Ok(()), Err(BAD_VALUE)),
        };
        assert_eq!(
            read(&mut m, 0, register).map(|_| ()),
            reading,
            "{register:#x}"
        );
        assert_eq!(
            write(&mut m, 0, register, u64::MAX).map(|_| ()),
            writing,
            "{register:#x}"
        );
        assert_eq!(m, fresh(2, 1));
    }
}

/// 1.16, 6.21 to 6.23
#[test]
fn written_values_are_whole() {
    let mut m = fresh(2, 1);
    for value in [1, 0x100, 1 << 32, 1 << 63] {
        assert_eq!(write(&mut m, 0, 0x80B, value), Err(BAD_VALUE));
    }
    for value in [0x100, 1 << 32, u64::MAX] {
        assert_eq!(write(&mut m, 0, 0x808, value), Err(BAD_VALUE));
    }
    for value in [0, 2, 30, 256, 0x141, (1 << 32) + 0x41] {
        assert_eq!(write(&mut m, 0, 0x83F, value), Err(BAD_VALUE));
    }
    assert_eq!(m, fresh(2, 1));
    assert_eq!(write(&mut m, 0, 0x808, 255), Ok(0));
    assert_eq!(read(&mut m, 0, 0x808), Ok(255));
    assert_eq!(write(&mut m, 0, 0x83F, 31), Ok(1));
    assert_eq!(write(&mut m, 0, 0x83F, 255), Ok(1));
}

/// 7.3, 7.8 to 7.11: each broken once, with bits 14 and 15 in each way (7.5).
#[test]
fn icr_rules() {
    let refused = |value: u64| {
        let mut m = fresh(2, 1);
        assert_eq!(write(&mut m, 0, 0x830, value), Err(BAD_VALUE), "{value:#x}");
        assert_eq!(m, fresh(2, 1));
    };
    for bits in BITS_14_AND_15 {
        for bit in [12, 13, 16, 17].into_iter().chain(20..=31) {
            refused(0x41 + bits + (1 << bit));
        }
    }
    for kind in [1, 2, 3, 5, 6, 7] {
        refused(0x4041 + kind * 0x100);
    }
    for vector in 0..=30 {
        refused(0x4000 + vector);
    }
    refused(0x0004_4400);
    refused(0x0008_4400);
    for good in [
        0x4041,
        0x401F,
        0x40FF,
        0x4841,
        0x4400,
        0x000C_4400,
        0x0004_4041,
        0x0008_4041,
    ] {
        for bits in BITS_14_AND_15 {
            let value = good - 0x4000 + bits;
            assert!(
                write(&mut fresh(2, 1), 0, 0x830, value).is_ok(),
                "{value:#x}"
            );
        }
    }
}

/// 5.17: every vector, with ECX bit 8 and without, and with bit 9.
#[test]
fn what_call_4_takes() {
    for ecx in 0..1024 {
        let vector = ecx % 256;
        let taken = ecx < 512 && ([2, 18].contains(&vector) || vector > 30);
        let answer = if taken { Ok(0) } else { Err(BAD_VALUE) };
        let mut m = fresh(2, 1);
        assert_eq!(call(&mut m, 0, 4, ecx, 0), answer, "{ecx:#x}");
        let allowed = m.records[0].allowed.members();
        let put = taken && ecx >= 256;
        assert_eq!(allowed, vec![vector as usize; usize::from(put)]);
    }
}

/// 11.12 to 11.17, 11.19, 11.21 to 11.23
#[test]
fn the_order_of_the_checks() {
    let mut m = fresh(3, 1);
    m.records[1].phase = Phase::Leaving;
    m.records[2].phase = Phase::Left;
    let before = m.clone();
    let short = &mut [0u8; 255];
    assert_eq!(notice(&mut m, 3, short), Err(UNKNOWN_VCPU));
    assert_eq!(notice(&mut m, 1, short), Err(NOT_ACTIVE));
    assert_eq!(notice(&mut m, 0, short), Err(SHORT_PAGE));
    assert_eq!(hand_back(&mut m, 3, short, true, true), Err(UNKNOWN_VCPU));
    assert_eq!(hand_back(&mut m, 0, short, true, true), Err(STILL_ACTIVE));
    assert_eq!(hand_back(&mut m, 2, short, true, true), Err(HAS_LEFT));
    assert_eq!(hand_back(&mut m, 1, short, true, true), Err(SHORT_PAGE));
    assert_eq!(non_delivery(&mut m, 3), Err(UNKNOWN_VCPU));
    assert_eq!(non_delivery(&mut m, 1), Err(NOT_ACTIVE));
    assert_eq!(non_delivery(&mut m, 0), Err(NOTHING_IN_FLIGHT));
    assert_eq!(entry(&mut m, 3, true, false, false), Err(UNKNOWN_VCPU));
    assert_eq!(entry(&mut m, 1, true, false, false), Err(NOT_ACTIVE));
    assert_eq!(call(&mut m, 3, 5, 0x7FF, u64::MAX), Err(UNKNOWN_VCPU));
    assert_eq!(call(&mut m, 1, 5, 0x7FF, u64::MAX), Err(NOT_ACTIVE));
    assert_eq!(call(&mut m, 0, 5, 0x7FF, u64::MAX), Err(UNKNOWN_CALL));
    assert_eq!(call(&mut m, 0, 3, 0x7FF, u64::MAX), Err(BAD_REGISTER));
    assert_eq!(call(&mut m, 0, 3, 0x802, 0), Err(BAD_VALUE));
    assert_eq!(allow(&mut m, 3, &[0x11E], &mut []), Err(UNKNOWN_VCPU));
    assert_eq!(allow(&mut m, 1, &[0x11E], &mut []), Err(NOT_ACTIVE));
    assert_eq!(allow(&mut m, 0, &[0x11E], &mut []), Err(BAD_LIST));
    assert_eq!(m, before);
}

/// 11.6, 11.23, 11.24
#[test]
fn no_event_works_on_a_vcpu_that_has_left() {
    let mut m = fresh(2, 1);
    m.records[0].phase = Phase::Left;
    let before = m.clone();
    assert_eq!(notice(&mut m, 0, &mut page(&[(3, 1)])), Err(NOT_ACTIVE));
    assert_eq!(call(&mut m, 0, 0, 0, 0), Err(NOT_ACTIVE));
    assert_eq!(entry(&mut m, 0, true, false, false), Err(NOT_ACTIVE));
    assert_eq!(non_delivery(&mut m, 0), Err(NOT_ACTIVE));
    assert_eq!(allow(&mut m, 0, &[], &mut []), Err(NOT_ACTIVE));
    let again = hand_back(&mut m, 0, &mut page(&[]), true, true);
    assert_eq!(again, Err(HAS_LEFT));
    assert_eq!(m, before);
}

/// 10.2, 11.3, 11.17, 11.23, 13.101, 13.102: every phase, length, IF and shadow.
#[test]
fn the_codes_of_hand_backs() {
    assert_eq!(table(step), Ok(()));
}

/// 11.24, 13.102
#[test]
fn the_codes_of_other_events_on_a_vcpu_that_has_left() {
    assert_eq!(others(step), Ok(()));
}

/// 11.3: leaving is each vCPU's own. With the count at 0 and the others gone, one is still active.
#[test]
fn still_active_with_none_registered() {
    let mut m = fresh(2, 1);
    assert_eq!(call(&mut m, 0, 1, DEREGISTER, 0), Ok(0));
    assert!(hand_back(&mut m, 0, &mut page(&[]), true, false).is_ok());
    assert_eq!(m.count, 0);
    let before = m.clone();
    let early = hand_back(&mut m, 1, &mut page(&[]), true, false);
    assert_eq!((early, &m), (Err(STILL_ACTIVE), &before));
    assert_eq!(call(&mut m, 1, 0, 0, 0), Ok(0));
    assert_eq!(call(&mut m, 1, 1, LEAVE, 0), Ok(0));
    assert!(hand_back(&mut m, 1, &mut page(&[]), true, false).is_ok());
}

/// 13.103, by the module itself: behind every event those have left that had at first, here vCPU 0
/// or nobody, and those with an accepted hand-back.
#[test]
fn who_has_left() {
    let mut accepted = 0;
    for (index, list) in lists(6, 20_000).into_iter().enumerate() {
        let mut m = Module::refused();
        let mut left = BTreeSet::new();
        for mut event in list {
            let answer = step(&mut m, &mut event);
            match (&event, answer) {
                (Event::Start { .. }, Answer::Start(Ok(()))) if index % 2 == 0 => {
                    m.records[0].phase = Phase::Left;
                    left.insert(0);
                }
                (Event::HandBack { vcpu, .. }, Answer::HandBack(Ok(_))) => {
                    assert!(left.insert(*vcpu), "once only");
                    accepted += 1;
                }
                _ => {}
            }
            let gone = |&vcpu: &u32| m.record(vcpu).phase == Phase::Left;
            assert_eq!((0..m.n).filter(gone).collect::<BTreeSet<u32>>(), left);
        }
    }
    assert!(accepted >= 50, "{accepted}");
}

/// 5.5, 5.6
#[test]
fn arguments_that_are_not_read() {
    let mut m = fresh(2, 1);
    assert_eq!(call(&mut m, 0, 0, u32::MAX, u64::MAX), Ok(0));
    assert_eq!(call(&mut m, 0, 1, REGISTER, u64::MAX), Ok(0));
    assert_eq!(call(&mut m, 1, 2, 0x802, u64::MAX), Ok(1));
    assert_eq!(call(&mut m, 0, 4, 0x141, u64::MAX), Ok(0));
    assert_eq!(m.count, 2);
}

/// 6.3 to 6.11, 6.14, 6.16
#[test]
fn what_registers_read_as() {
    let mut m: Module = fresh(32, 1);
    let r = &mut m.records[31];
    r.service = set(&[31, 32, 255]);
    r.pending = set(&[63, 64]);
    r.pending_level = set(&[64]);
    r.serving_level = set(&[255]);
    r.tpr = 0x12;
    let expected = [
        (0x802, 31),
        (0x808, 0x12),
        (0x80A, 0xF0),
        (0x80D, 0x0001_8000),
        (0x810, 0x8000_0000),
        (0x811, 1),
        (0x812, 0),
        (0x817, 0x8000_0000),
        (0x818, 0),
        (0x81A, 1),
        (0x81F, 0x8000_0000),
        (0x820, 0),
        (0x821, 0x8000_0000),
        (0x822, 1),
        (0x827, 0),
        (0x830, 0),
    ];
    for (register, value) in expected {
        assert_eq!(read(&mut m, 31, register), Ok(value), "{register:#x}");
    }
}
