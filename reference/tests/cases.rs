//! The worked cases and the wrong readings (section 14).

mod common;

use common::*;
use reference::calls::call;
use reference::codes::{BAD_VALUE, COUNT_ZERO, SHORT_PAGE};
use reference::events::{entry, hand_back, non_delivery, notice, Shown};
use reference::registers::ppr;
use reference::set::VectorSet;
use reference::state::{Item, Phase};

/// 14.4
#[test]
fn one_allowed_vector_is_admitted() {
    let mut m = allowing(&[0x41]);
    let mut p = page(&[(3, 1), (64, 0x41)]);
    assert_eq!(notice(&mut m, 0, &mut p), counted(1, 0));
    assert_eq!(m.records[0].pending, set(&[0x41]));
    assert_eq!(p, page(&[]));
}

/// 14.5
#[test]
fn a_vector_not_allowed_is_dropped() {
    let mut m = allowing(&[]);
    let mut p = page(&[(3, 1), (64, 0x41)]);
    assert_eq!(notice(&mut m, 0, &mut p), counted(0, 0));
    assert_eq!(m, fresh(2, 1));
    assert_eq!(p, page(&[]));
}

/// 14.6
#[test]
fn a_page_that_announces_nothing_stays() {
    let mut m = allowing(&[0x41]);
    let mut p = page(&[(64, 0x41)]);
    assert_eq!(notice(&mut m, 0, &mut p), counted(0, 0));
    assert_eq!(m, allowing(&[0x41]));
    assert_eq!(p, page(&[(64, 0x41)]));
}

/// 14.7
#[test]
fn many_passes_over_the_single_vector() {
    let mut m = fresh(2, 1);
    m.records[0].allowed = VectorSet::all();
    let mut p = page(&[(3, 1), (64, 0x50), (65, 0x40), (72, 0x02)]);
    assert_eq!(notice(&mut m, 0, &mut p), counted(1, 0));
    assert_eq!(m.records[0].pending, set(&[0x41]));
    assert_eq!(p, page(&[]));
}

/// 14.8
#[test]
fn a_level_sensitive_vector_is_named_at_its_eoi() {
    let mut m = allowing(&[0x61]);
    let mut p = page(&[(3, 1), (64, 0x61), (65, 0x04)]);
    assert_eq!(notice(&mut m, 0, &mut p), counted(1, 0));
    assert_eq!(read(&mut m, 0, 0x81B), Ok(2));
    assert_eq!(
        entry(&mut m, 0, true, false, false),
        Ok(Shown::Presented(Item::Vector(0x61)))
    );
    assert_eq!(read(&mut m, 0, 0x81B), Ok(2));
    assert_eq!(write(&mut m, 0, 0x80B, 0), Ok(0x61));
    assert_eq!(read(&mut m, 0, 0x81B), Ok(0));
}

/// 14.9
#[test]
fn vector_30_is_not_admitted_and_cleared() {
    let mut m = fresh(2, 1);
    m.records[0].allowed = VectorSet::all();
    let mut p = page(&[(3, 1), (64, 30)]);
    assert_eq!(notice(&mut m, 0, &mut p), counted(0, 0));
    assert!(m.records[0].pending.is_empty());
    assert_eq!(p, page(&[]));
}

/// 14.10
#[test]
fn the_class_decides_on_presenting() {
    let mut m = fresh(2, 1);
    m.records[0].pending = set(&[0x41]);
    m.records[0].tpr = 0x40;
    assert_eq!(entry(&mut m, 0, true, false, false), Ok(Shown::Nothing));
    m.records[0].tpr = 0x3F;
    assert_eq!(
        entry(&mut m, 0, true, false, false),
        Ok(Shown::Presented(Item::Vector(0x41)))
    );
}

/// 14.11
#[test]
fn ppr_is_the_higher_class() {
    let mut m = fresh(2, 1);
    m.records[0].service = set(&[0x41]);
    m.records[0].tpr = 0x35;
    assert_eq!(ppr(&m.records[0]), 0x40);
    assert_eq!(read(&mut m, 0, 0x80A), Ok(0x40));
    m.records[0].tpr = 0x4A;
    assert_eq!(ppr(&m.records[0]), 0x4A);
    assert_eq!(read(&mut m, 0, 0x80A), Ok(0x4A));
}

/// 14.12
#[test]
fn ldr_of_vcpu_17() {
    let mut m = fresh(18, 1);
    assert_eq!(read(&mut m, 17, 0x80D), Ok(0x0001_0002));
}

/// 14.13
#[test]
fn what_call_4_may_name() {
    let mut m = fresh(2, 1);
    assert_eq!(call(&mut m, 0, 4, 0x11F, 0), Ok(0));
    assert_eq!(call(&mut m, 0, 4, 0x102, 0), Ok(0));
    assert_eq!(m.records[0].allowed, set(&[2, 31]));
    assert_eq!(call(&mut m, 0, 4, 0x11E, 0), Err(BAD_VALUE));
    assert_eq!(call(&mut m, 0, 4, 0x200, 0), Err(BAD_VALUE));
    assert_eq!(m.records[0].allowed, set(&[2, 31]));
}

/// 14.14
#[test]
fn registering_after_the_count_reached_0() {
    let mut m = fresh(2, 1);
    assert_eq!(call(&mut m, 0, 1, DEREGISTER, 0), Ok(0));
    assert_eq!(call(&mut m, 1, 1, REGISTER, 0), Err(COUNT_ZERO));
}

/// 14.15
#[test]
fn a_hand_back() {
    let mut m = fresh(2, 1);
    m.records[0].pending = set(&[0x41]);
    m.records[0].phase = Phase::Leaving;
    let mut p = page(&[]);
    assert_eq!(hand_back(&mut m, 0, &mut p, true, false), Ok(65_537));
    assert_eq!(p, page(&[(65, 0x40), (72, 0x02)]));
    assert_eq!(m.records[0].phase, Phase::Left);
    assert!(m.records[0].pending.is_empty());
}

/// 14.16
#[test]
fn a_page_of_255_bytes_is_short() {
    let mut m = allowing(&[0x41]);
    let mut p = page(&[(3, 1), (64, 0x41)]);
    assert_eq!(notice(&mut m, 0, &mut p[..255]), Err(SHORT_PAGE));
    assert_eq!(notice(&mut m, 0, &mut p), counted(1, 0));

    m.records[0].phase = Phase::Leaving;
    assert_eq!(
        hand_back(&mut m, 0, &mut p[..255], false, false),
        Err(SHORT_PAGE)
    );
    assert_eq!(hand_back(&mut m, 0, &mut p, false, false), Ok(0x1_0000));
}

/// 14.17
#[test]
fn misreading_single_vectors_are_tested_too() {
    for low in [0x00, 0x04, 0x40, 0x44] {
        let mut m = allowing(&[0x41]);
        let mut p = page(&[(3, 1), (64, 0x80), (65, low)]);
        assert_eq!(notice(&mut m, 0, &mut p), counted(0, 0));
        assert_eq!(m, allowing(&[0x41]));
    }
}

/// 14.18
#[test]
fn misreading_an_edge_request_keeps_the_level_mark() {
    let mut m = allowing(&[0x61]);
    notice(&mut m, 0, &mut page(&[(3, 1), (64, 0x61), (65, 0x04)])).unwrap();
    assert_eq!(write(&mut m, 1, 0x830, 0x4061), Ok(0));
    assert_eq!(write(&mut m, 0, 0x83F, 0x61), Ok(0));
    assert_eq!(
        notice(&mut m, 0, &mut page(&[(3, 1), (64, 0x61)])),
        counted(0, 1)
    );
    assert_eq!(
        notice(&mut m, 0, &mut page(&[(3, 1), (65, 0x40), (76, 0x02)])),
        counted(0, 1)
    );
    assert_eq!(m.records[0].pending_level, set(&[0x61]));
    assert_eq!(
        entry(&mut m, 0, true, false, false),
        Ok(Shown::Presented(Item::Vector(0x61)))
    );
    assert_eq!(write(&mut m, 0, 0x80B, 0), Ok(0x61));
}

/// 14.19
#[test]
fn misreading_equal_class_waits() {
    let mut m = fresh(2, 1);
    m.records[0].pending = set(&[0x4F]);
    m.records[0].service = set(&[0x41]);
    assert_eq!(entry(&mut m, 0, true, false, false), Ok(Shown::Nothing));
    m.records[0].pending = set(&[0x50]);
    assert_eq!(
        entry(&mut m, 0, true, false, false),
        Ok(Shown::Presented(Item::Vector(0x50)))
    );
}

/// 14.20
#[test]
fn misreading_non_delivery_clears_both() {
    let mut m = allowing(&[0x61]);
    notice(&mut m, 0, &mut page(&[(3, 1), (64, 0x61), (65, 0x04)])).unwrap();
    let before = m.clone();
    entry(&mut m, 0, true, false, false).unwrap();
    assert_eq!(m.records[0].serving_level, set(&[0x61]));
    assert_eq!(non_delivery(&mut m, 0), Ok(0));
    assert_eq!(m, before);
}
