//! The cases 14.98 to 14.106, its destinations apart: ID and LDR, the VMPLs 2 and 3, high vectors and a high TPR, words of registers, a vector that comes back where it was requested
//! otherwise meanwhile, and marks beside a level-sensitive vector that is not admitted.

mod common;

use common::*;
use reference::calls::call;
use reference::events::{entry, hand_back, non_delivery, notice, Shown};
use reference::state::{Item, Module, Phase};

const EOI: u32 = 0x80B;

/// n 2 at this VMPL, with 0x41 allowed on vCPU 0.
fn allowing_at(vmpl: u32) -> Module {
    let mut m = fresh(2, vmpl);
    m.records[0].allowed = set(&[0x41]);
    m
}

fn presents_41(m: &mut Module) {
    let answer = entry(m, 0, true, false, false);
    assert_eq!(answer, Ok(Shown::Presented(Item::Vector(0x41))));
}

/// 14.98
#[test]
fn the_id() {
    assert_eq!(read(&mut fresh(18, 1), 0, 0x802), Ok(0));
    assert_eq!(read(&mut fresh(2, 1), 1, 0x802), Ok(1));
    assert_eq!(read(&mut fresh(18, 1), 17, 0x802), Ok(17));
}

/// 14.99
#[test]
fn notices_at_vmpl_2_and_3() {
    for (vmpl, byte_3, at) in [(2, 0x02, 128), (3, 0x04, 192)] {
        let (mut m, mut p) = (allowing_at(vmpl), page(&[(3, byte_3), (at, 0x41)]));
        assert_eq!(notice(&mut m, 0, &mut p), counted(1, 0));
        assert_eq!(p, page(&[]));
        presents_41(&mut m);
    }
    for (vmpl, byte_3, at, after_3) in [
        (2, 0x05, 128, 0x05),
        (2, 0x07, 192, 0x05),
        (3, 0x03, 192, 0x03),
        (3, 0x07, 128, 0x03),
    ] {
        let (mut m, mut p) = (allowing_at(vmpl), page(&[(3, byte_3), (at, 0x41)]));
        assert_eq!(notice(&mut m, 0, &mut p), counted(0, 0));
        assert_eq!(p, page(&[(3, after_3), (at, 0x41)]));
    }
}

/// 14.100
#[test]
fn hand_backs_at_vmpl_2_and_3() {
    for (vmpl, result, at) in [(2, 131_073, 128), (3, 196_609, 192)] {
        let mut m = fresh(2, vmpl);
        let r = &mut m.records[0];
        r.pending = set(&[0x41]);
        r.service = set(&[0x33, 0xF1]);
        r.icr = u64::MAX;
        r.phase = Phase::Leaving;
        let mut p = vec![0xFF; 256];
        assert_eq!(hand_back(&mut m, 0, &mut p, true, false), Ok(result));
        let mut after = vec![0xFF; 256];
        after[at..at + 64].fill(0);
        (after[at + 1], after[at + 8]) = (0x40, 0x02);
        (after[at + 38], after[at + 62]) = (0x08, 0x02);
        assert_eq!(p, after);
    }
}

/// 14.101
#[test]
fn high_vectors_at_an_eoi() {
    for (vector, level, owed) in [
        (0x80, 0x80, 0x80),
        (0xF1, 0xF1, 0xF1),
        (0xFF, 0xFF, 0xFF),
        (0xF1, 0xF0, 0),
    ] {
        let mut m = fresh(2, 1);
        m.records[0].service = set(&[vector]);
        m.records[0].serving_level = set(&[level]);
        assert_eq!(call(&mut m, 0, 3, EOI, 0), Ok(owed));
    }
}

/// 14.102
#[test]
fn an_edge_vector_that_is_level_sensitive_by_now() {
    let mut m = allowing(&[0x41]);
    assert_eq!(
        notice(&mut m, 0, &mut page(&[(3, 0x01), (64, 0x41)])),
        counted(1, 0)
    );
    presents_41(&mut m);
    assert_eq!(
        notice(&mut m, 0, &mut page(&[(3, 0x01), (64, 0x41), (65, 0x04)])),
        counted(1, 0)
    );
    assert_eq!(non_delivery(&mut m, 0), Ok(0));
    assert_eq!(read(&mut m, 0, 0x822), Ok(2));
    assert_eq!(read(&mut m, 0, 0x812), Ok(0));
    assert_eq!(read(&mut m, 0, 0x81A), Ok(2));
}

/// 14.102, the other way round
#[test]
fn a_level_vector_that_is_requested_as_edge_by_now() {
    let mut m = allowing(&[0x61]);
    let mut level = page(&[(3, 0x01), (64, 0x61), (65, 0x04)]);
    assert_eq!(notice(&mut m, 0, &mut level), counted(1, 0));
    let answer = entry(&mut m, 0, true, false, false);
    assert_eq!(answer, Ok(Shown::Presented(Item::Vector(0x61))));
    let mut edge = page(&[(3, 0x01), (64, 0x61)]);
    assert_eq!(notice(&mut m, 0, &mut edge), counted(1, 0));
    assert_eq!(non_delivery(&mut m, 0), Ok(0));
    assert_eq!(read(&mut m, 0, 0x823), Ok(2));
    assert_eq!(read(&mut m, 0, 0x813), Ok(0));
    assert_eq!(read(&mut m, 0, 0x81B), Ok(2));
}

/// 14.103
#[test]
fn marks_beside_a_level_vector_that_is_not_admitted() {
    for vector in [0x61, 30] {
        let mut m = allowing(&[0x41, 0x52]);
        let mut p = page(&[(3, 0x01), (64, vector), (65, 0x44), (72, 0x02), (74, 0x04)]);
        assert_eq!(notice(&mut m, 0, &mut p), counted(2, 0));
        assert_eq!(m.records[0].pending, set(&[0x41, 0x52]));
        assert_eq!(m.records[0].pending_level, set(&[]));
    }
}

/// 14.104
#[test]
fn high_vectors_and_a_high_tpr() {
    for vector in [31, 255] {
        let mut p = page(&[(3, 0x01), (64, vector)]);
        let answer = notice(&mut allowing(&[usize::from(vector)]), 0, &mut p);
        assert_eq!(answer, counted(1, 0));
    }
    let mut m = allowing(&[0xF1]);
    let mut p = page(&[(3, 0x01), (64, 0xF1)]);
    assert_eq!(notice(&mut m, 0, &mut p), counted(1, 0));
    assert_eq!(m.records[0].pending, set(&[0xF1]));
    m.records[0].tpr = 0xF0;
    assert_eq!(entry(&mut m, 0, true, false, false), Ok(Shown::Nothing));
    m.records[0].tpr = 0xEF;
    let answer = entry(&mut m, 0, true, false, false);
    assert_eq!(answer, Ok(Shown::Presented(Item::Vector(0xF1))));
    let mut m = fresh(2, 1);
    m.records[0].tpr = 0xFF;
    m.records[0].phase = Phase::Leaving;
    let answer = hand_back(&mut m, 0, &mut page(&[]), true, false);
    assert_eq!(answer, Ok(130_817));
}

/// 14.105
#[test]
fn words_of_registers() {
    let high = set(&[0x80, 0xA1, 0xC2, 0xE3]);
    let mut m = fresh(2, 1);
    m.records[0].service = high.clone();
    for (register, value) in [(0x814, 1), (0x815, 2), (0x816, 4), (0x817, 8)] {
        assert_eq!(read(&mut m, 0, register), Ok(value));
    }
    for (of_service, register, value) in [(false, 0x81C, 1), (true, 0x81D, 2), (false, 0x81E, 4)] {
        let mut m = fresh(2, 1);
        let r = &mut m.records[0];
        *(if of_service {
            &mut r.serving_level
        } else {
            &mut r.pending_level
        }) = high.clone();
        assert_eq!(read(&mut m, 0, register), Ok(value));
    }
    let mut m = fresh(2, 1);
    m.records[0].pending = high;
    for (register, value) in [(0x824, 1), (0x825, 2), (0x826, 4)] {
        assert_eq!(read(&mut m, 0, register), Ok(value));
    }
    m.records[0].pending = set(&[0x23]);
    assert_eq!(read(&mut m, 0, 0x821), Ok(8));
}

/// 14.106
#[test]
fn ldr_and_ppr() {
    for (vcpu, value) in [(0, 0x1), (15, 0x8000), (16, 0x10001), (31, 0x18000)] {
        assert_eq!(read(&mut fresh(32, 1), vcpu, 0x80D), Ok(value));
    }
    for (tpr, service, value) in [(0x3F, &[0x41, 0x5F][..], 0x50), (0xE9, &[0xFF][..], 0xF0)] {
        let mut m = fresh(2, 1);
        m.records[0].tpr = tpr;
        m.records[0].service = set(service);
        assert_eq!(read(&mut m, 0, 0x80A), Ok(value));
    }
}
