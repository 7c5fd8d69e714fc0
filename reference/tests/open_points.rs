//! The points of `docs/DECISIONS.md`, each with the clauses that say how it was decided.

mod common;

use common::*;
use reference::calls::call;
use reference::codes::*;
use reference::demand3::{played, remaining};
use reference::events::{
    allow, entry, hand_back, non_delivery, notice, step, Answer, Event, Shown,
};
use reference::icr;
use reference::page::{admitted, set_bit};
use reference::set::VectorSet;
use reference::state::{start, Item, Module, Phase, Record};

const NMI: Option<Item> = Some(Item::Nmi);
const PRESENTED_NMI: Result<Shown, Code> = Ok(Shown::Presented(Item::Nmi));
const PRESENTED_MC: Result<Shown, Code> = Ok(Shown::Presented(Item::MachineCheck));

fn presented(v: usize) -> Result<Shown, Code> {
    Ok(Shown::Presented(Item::Vector(v)))
}

fn every_event_is_unknown(m: &mut Module, vcpu: u32) {
    let before = m.clone();
    assert_eq!(notice(m, vcpu, &mut page(&[(3, 7)])), Err(UNKNOWN_VCPU));
    assert_eq!(call(m, vcpu, 0, 0, 0), Err(UNKNOWN_VCPU));
    assert_eq!(entry(m, vcpu, true, false, false), Err(UNKNOWN_VCPU));
    assert_eq!(non_delivery(m, vcpu), Err(UNKNOWN_VCPU));
    assert_eq!(allow(m, vcpu, &[0x141], &mut [0]), Err(UNKNOWN_VCPU));
    assert_eq!(
        hand_back(m, vcpu, &mut page(&[]), true, false),
        Err(UNKNOWN_VCPU)
    );
    assert_eq!(*m, before);
}

/// 1.16, 3.1, 3.2, 3.5
#[test]
fn start_takes_whole_numbers() {
    for (n, l) in [
        (0, 1),
        (33, 1),
        (256 + 2, 1),
        (u32::MAX, 1),
        (2, 0),
        (2, 4),
        (2, 257),
    ] {
        assert_eq!(start(n, l), (Err(BAD_START), Module::refused()));
    }
    for (n, l) in [(1, 1), (32, 3), (18, 2)] {
        let (answer, m) = start(n, l);
        assert_eq!(
            (answer, m.n, m.vmpl, m.count, m.records.len()),
            (Ok(()), n, l, 1, n as usize)
        );
    }
}

/// 1.16, 11.1, 11.7
#[test]
fn vcpu_and_call_are_whole_numbers() {
    let mut m = fresh(2, 1);
    for vcpu in [2, 32, 256, 257, 0x1_0000, u32::MAX] {
        assert_eq!(call(&mut m, vcpu, 0, 0, 0), Err(UNKNOWN_VCPU));
    }
    for number in [5, 256, 257, 0x1_0000, u32::MAX] {
        assert_eq!(call(&mut m, 0, number, 0, 0), Err(UNKNOWN_CALL));
    }
}

/// 3.6, 3.7
#[test]
fn a_refused_module_knows_no_vcpu() {
    let mut m = Module::refused();
    assert_eq!((m.n, m.vmpl, m.count, m.records.len()), (0, 1, 0, 0));
    every_event_is_unknown(&mut m, 0);
}

/// 2.14: a record stands there, and no event comes to it.
#[test]
fn places_at_n_and_above_are_left_alone() {
    let mut m = fresh(3, 1);
    m.n = 2;
    let third = m.records[2].clone();
    every_event_is_unknown(&mut m, 2);
    assert_eq!(write(&mut m, 0, 0x830, 0x0008_4041), Ok(3));
    assert_eq!(write(&mut m, 0, 0x830, 0x0000_0002_0000_4041), Ok(0));
    assert_eq!(m.records[2], third);
}

/// 2.15
#[test]
fn a_module_value_out_of_range_knows_no_vcpu() {
    let mut many = fresh(32, 1);
    many.n = 33;
    many.records.push(many.records[0].clone());
    every_event_is_unknown(&mut many, 0);
    for vmpl in [0, 4, 257] {
        let mut m = fresh(2, 1);
        m.vmpl = vmpl;
        every_event_is_unknown(&mut m, 0);
    }
}

/// 4.4, 4.5, 4.33
#[test]
fn each_level_has_its_announcing_bit() {
    for vmpl in 1..=3 {
        let own = 1 << (vmpl - 1);
        let start = 64 * vmpl as usize;
        let mut m = fresh(2, vmpl);
        m.records[0].allowed = set(&[0x41]);
        let mut p = vec![0xFF; 300];
        p[start..start + 32].fill(0);
        p[start] = 0x41;
        let mut silent = p.clone();
        silent[3] -= own;

        let mut after = p.clone();
        after[3] -= own;
        after[start] = 0;
        assert_eq!(notice(&mut m, 0, &mut p), counted(1, 0));
        assert_eq!(p, after);
        let unchanged = silent.clone();
        assert_eq!(notice(&mut m, 0, &mut silent), counted(0, 0));
        assert_eq!(silent, unchanged);
    }
}

/// 4.22
#[test]
fn a_refused_level_vector_is_no_edge_vector() {
    for vector in [0, 2, 30, 0x80] {
        let mut m = allowing(&[2, 0x41]);
        let mut p = page(&[(3, 1), (64, vector), (65, 0x04)]);
        assert_eq!(notice(&mut m, 0, &mut p), counted(0, 0));
        let mut p = page(&[(3, 1), (64, vector), (65, 0x44), (72, 0x02), (80, 0x01)]);
        assert_eq!(notice(&mut m, 0, &mut p), counted(1, 0));
        assert_eq!(m.records[0].pending, set(&[0x41]));
        assert!(m.records[0].pending_level.is_empty());
    }
}

/// 4.18, 4.24
#[test]
fn a_marked_level_vector_counts_once() {
    let mut m = allowing(&[0x41, 0x42]);
    let mut p = page(&[(3, 1), (64, 0x41), (65, 0x44), (72, 0x06)]);
    assert_eq!(notice(&mut m, 0, &mut p), counted(2, 0));
    assert_eq!(m.records[0].pending, set(&[0x41, 0x42]));
    assert_eq!(m.records[0].pending_level, set(&[0x41]));
}

/// 4.31 to 4.35
#[test]
fn which_bits_survive_a_notice() {
    let mut m = fresh(2, 2);
    let mut full = vec![0xFF; 256];
    notice(&mut m, 0, &mut full).unwrap();
    let mut after = vec![0xFF; 256];
    after[3] = 0xFD;
    after[128] = 0;
    after[129] = 0xB8;
    after[131] = 0x7F;
    after[132..160].fill(0);
    assert_eq!(full, after);

    let mut single = vec![0xFF; 256];
    single[129] = 0xBF;
    notice(&mut m, 0, &mut single).unwrap();
    let mut after = vec![0xFF; 256];
    after[3] = 0xFD;
    after[128] = 0;
    after[129] = 0xB8;
    assert_eq!(single, after);
}

/// 4.29, 4.30, 4.37
#[test]
fn items_count_each_time_and_227_is_most() {
    let mut m = fresh(2, 1);
    m.records[0].allowed = VectorSet::all();
    assert_eq!(notice(&mut m, 0, &mut [0xFF; 256]), counted(227, 0));
    assert_eq!(notice(&mut m, 0, &mut [0xFF; 256]), counted(0, 227));
    assert_eq!(
        m.records[0].pending.members(),
        (31..=255).collect::<Vec<usize>>()
    );
    assert_eq!(m.records[0].pending_level, set(&[255]));
    assert!(m.records[0].nmi && m.records[0].machine_check);
}

/// 4.29, 4.37: level-sensitive or edge makes no difference, to what is requested and to what was
/// pending. A level-sensitive request that is merged still joins PL, an edge one leaves PL.
#[test]
fn new_and_merged_do_not_ask_for_the_kind() {
    let edge = [(3, 1), (64, 0x61)];
    let level = [(3, 1), (64, 0x61), (65, 0x04)];
    let marked = [(3, 1), (65, 0x40), (76, 0x02)];
    let mut as_edge = Record::fresh();
    as_edge.pending = set(&[0x61]);
    let mut as_level = as_edge.clone();
    as_level.pending_level = set(&[0x61]);
    for (request, after_edge) in [
        (&edge[..], set(&[])),
        (&level, set(&[0x61])),
        (&marked, set(&[])),
    ] {
        assert_eq!(told(&Record::fresh(), request).0, counted(1, 0));
        let (answer, after) = told(&as_edge, request);
        assert_eq!(answer, counted(0, 1));
        assert_eq!(after.pending, set(&[0x61]));
        assert_eq!(after.pending_level, after_edge);
        let (answer, after) = told(&as_level, request);
        assert_eq!(answer, counted(0, 1));
        assert_eq!(after.pending, set(&[0x61]));
        assert_eq!(after.pending_level, set(&[0x61]));
    }
}

/// 4.29: what is in service, in flight or a member of PL alone was not pending, and neither was an
/// NMI in flight.
#[test]
fn what_is_not_pending_is_new() {
    let mut r = Record::fresh();
    r.service = set(&[0x41]);
    r.serving_level = set(&[0x41]);
    r.pending_level = set(&[0x41]);
    r.flight = Some(Item::Vector(0x41));
    let (answer, after) = told(&r, &[(3, 1), (64, 0x41)]);
    assert_eq!(answer, counted(1, 0));
    assert_eq!((after.service, after.flight), (r.service, r.flight));
    let mut r = Record::fresh();
    r.flight = NMI;
    assert_eq!(told(&r, &[(3, 1), (65, 0x01)]).0, counted(1, 0));
    r.nmi = true;
    assert_eq!(told(&r, &[(3, 1), (65, 0x01)]).0, counted(0, 1));
}

/// 4.24, 4.37: a level-sensitive vector that is marked too counts once, new or merged.
#[test]
fn a_marked_level_vector_is_merged_once() {
    let mut r = Record::fresh();
    let twice = [(3, 1), (64, 0x41), (65, 0x44), (72, 0x06)];
    assert_eq!(told(&r, &twice).0, counted(2, 0));
    r.pending = set(&[0x41]);
    assert_eq!(told(&r, &twice).0, counted(1, 1));
    r.pending = set(&[0x42]);
    assert_eq!(told(&r, &twice).0, counted(1, 1));
    r.pending = set(&[0x41, 0x42, 0x43]);
    assert_eq!(told(&r, &twice).0, counted(0, 2));
}

/// 4.6, 4.29, 4.37: what is pending counts only where it is admitted again.
#[test]
fn a_notice_of_no_item_answers_0_0() {
    let mut m = allowing(&[0x41]);
    m.records[0].pending = set(&[0x41, 0x42]);
    m.records[0].nmi = true;
    let before = m.clone();
    for bytes in [
        &[(64, 0x41), (65, 0x01)][..],
        &[(3, 1)],
        &[(3, 1), (64, 0x42), (65, 0x01)],
        &[(3, 1), (65, 0x40), (72, 0x04)],
        &[(3, 6), (64, 0x41), (128, 0x41), (192, 0x41)],
    ] {
        assert_eq!(notice(&mut m, 0, &mut page(bytes)), counted(0, 0));
        assert_eq!(m, before);
    }
}

/// 4.23
#[test]
fn vector_2_is_only_the_nmi() {
    let mut m = allowing(&[2]);
    assert_eq!(
        notice(&mut m, 0, &mut page(&[(3, 1), (64, 2)])),
        counted(0, 0)
    );
    assert_eq!(
        notice(&mut m, 0, &mut page(&[(3, 1), (64, 2), (65, 4)])),
        counted(0, 0)
    );
    assert_eq!(m, allowing(&[2]));
    assert_eq!(
        notice(&mut m, 0, &mut page(&[(3, 1), (65, 1)])),
        counted(1, 0)
    );
    assert!(m.records[0].nmi);
}

/// 4.36: the NMI, a level-sensitive and an edge vector come in, and all else stays.
#[test]
fn a_notice_changes_what_is_pending_alone() {
    let mut m = fresh(2, 1);
    m.count = 7;
    let r = &mut m.records[0];
    r.allowed = set(&[2, 0x41, 0x61]);
    r.pending = set(&[0x50]);
    r.pending_level = set(&[0x50]);
    r.service = set(&[0x33, 0x70]);
    r.serving_level = set(&[0x33]);
    r.tpr = 0xAB;
    r.icr = 0x4041;
    r.flight = Some(Item::Vector(0x70));
    let mut after = m.clone();
    after.records[0].pending = set(&[0x41, 0x50, 0x61]);
    after.records[0].pending_level = set(&[0x50, 0x61]);
    after.records[0].nmi = true;
    let mut p = page(&[(3, 1), (64, 0x61), (65, 0x45), (72, 0x02)]);
    assert_eq!(notice(&mut m, 0, &mut p), counted(3, 0));
    assert_eq!(m, after);
}

/// 5.3, 5.4, 8.3
#[test]
fn what_forgets_what_is_in_flight() {
    let mut m = fresh(2, 1);
    m.records[0].nmi = true;
    assert_eq!(entry(&mut m, 0, true, false, false), PRESENTED_NMI);
    assert_eq!(call(&mut m, 0, 5, 0, 0), Err(UNKNOWN_CALL));
    assert_eq!(call(&mut m, 0, 4, 0x11E, 0), Err(BAD_VALUE));
    assert_eq!(
        notice(&mut m, 0, &mut page(&[(3, 1), (65, 1)])),
        counted(0, 0)
    );
    assert_eq!(write(&mut m, 1, 0x830, 0x4041), Ok(1));
    assert_eq!(
        hand_back(&mut m, 0, &mut page(&[]), true, false),
        Err(STILL_ACTIVE)
    );
    assert_eq!(m.records[0].flight, NMI);

    let mut by_call = m.clone();
    assert_eq!(call(&mut by_call, 0, 0, 9, 9), Ok(0));
    assert_eq!(by_call.records[0].flight, None);
    let mut by_leaving = m.clone();
    assert_eq!(call(&mut by_leaving, 0, 1, DEREGISTER, 0), Ok(0));
    assert_eq!(by_leaving.records[0].phase, Phase::Leaving);
    assert_eq!(by_leaving.records[0].flight, None);
    let mut by_entry = m.clone();
    assert_eq!(
        entry(&mut by_entry, 0, false, false, false),
        Ok(Shown::Window(0x41))
    );
    assert_eq!(by_entry.records[0].flight, None);
    assert_eq!(non_delivery(&mut by_entry, 0), Err(NOTHING_IN_FLIGHT));
}

/// 5.8 to 5.10
#[test]
fn deregistering_at_count_0_leaves() {
    let mut m = fresh(2, 1);
    assert_eq!(call(&mut m, 0, 1, LEAVE, 0), Ok(0));
    assert_eq!(m.records[0].phase, Phase::Active);
    assert_eq!(call(&mut m, 0, 1, DEREGISTER, 0), Ok(0));
    assert_eq!(call(&mut m, 1, 1, DEREGISTER, 0), Ok(0));
    assert_eq!(m.count, 0);
    assert_eq!(m.records[1].phase, Phase::Leaving);
}

/// 5.7, 5.12, 11.18
#[test]
fn the_codes_of_registering() {
    let mut m = fresh(2, 1);
    for _ in 1..255 {
        assert_eq!(call(&mut m, 0, 1, REGISTER, 0), Ok(0));
    }
    assert_eq!(call(&mut m, 0, 1, REGISTER, 0), Err(COUNT_FULL));
    assert_eq!(call(&mut m, 0, 1, 3, 0), Err(BAD_VALUE));
    assert_eq!(m.count, 255);
    m.count = 0;
    assert_eq!(call(&mut m, 0, 1, REGISTER, 0), Err(COUNT_ZERO));
    assert_eq!(call(&mut m, 0, 1, 0x102, 0), Err(BAD_VALUE));
}

/// 6.28
#[test]
fn eoi_with_an_empty_s_changes_no_set() {
    let mut m = fresh(2, 1);
    m.records[0].serving_level = set(&[0x61]);
    assert_eq!(write(&mut m, 0, 0x80B, 0), Ok(0));
    assert_eq!(m.records[0].serving_level, set(&[0x61]));
}

/// 7.9, 7.12
#[test]
fn shorthands_and_nmi_vectors() {
    let send = |value: u64| write(&mut fresh(18, 1), 3, 0x830, value);
    assert_eq!(send(0xFFFF_0000_0004_4841), Ok(1 << 3));
    assert_eq!(send(0x0000_0001_0008_4841), Ok(0x3_FFFF));
    assert_eq!(send(0x0000_0003_000C_4041), Ok(0x3_FFF7));
    for vector in [0, 2, 30, 255] {
        let mut m = fresh(18, 1);
        let value = 0x0000_0011_0000_4400 + vector;
        assert_eq!(write(&mut m, 3, 0x830, value), Ok(1 << 17));
        assert!(m.records[17].nmi);
    }
}

/// 7.5, 13.36: for both types, every shorthand and both modes; the module is the same but for the ICR.
#[test]
fn icr_bits_14_and_15_play_no_part_in_delivery() {
    for low in [
        0x41, 0x841, 0x400, 0xC00, 0x4_0041, 0x8_0041, 0xC_0041, 0xC_0400,
    ] {
        for destination in [0, 1, 0x10, 0x1_0003, 0xFFFF_FFFF] {
            let sent = |bits: u64| {
                let value = destination * 0x1_0000_0000 + bits + low;
                let mut m = fresh(18, 1);
                m.records[1].phase = Phase::Leaving;
                let answer = write(&mut m, 0, 0x830, value);
                assert!(answer.is_ok(), "{value:#x}");
                assert_eq!(m.records[0].icr, value);
                m.records[0].icr = 0;
                (answer, m)
            };
            for bits in BITS_14_AND_15 {
                assert_eq!(sent(bits), sent(0x4000), "{low:#x} {destination:#x}");
            }
        }
    }
}

/// 7.24: a vector joins the level-sensitive part of the IRR by no such bit, and leaves it by none.
#[test]
fn icr_bits_14_and_15_and_the_level_sensitive_part() {
    for bits in BITS_14_AND_15 {
        let mut m = fresh(1, 1);
        assert_eq!(write(&mut m, 0, 0x830, 0x4_0041 + bits), Ok(1));
        assert_eq!(m.records[0].pending, set(&[0x41]));
        assert!(m.records[0].pending_level.is_empty());
        m.records[0].pending_level = set(&[0x41]);
        assert_eq!(write(&mut m, 0, 0x830, 0x4_0041 + bits), Ok(0));
        assert_eq!(m.records[0].pending_level, set(&[0x41]));
    }
}

/// 6.23: the self-IPI register takes a vector and no such bit.
#[test]
fn the_self_ipi_register_has_no_bits_14_and_15() {
    let mut m = fresh(1, 1);
    for bits in [0x4000, 0x8000, 0xC000] {
        assert_eq!(write(&mut m, 0, 0x83F, 0x41 + bits), Err(BAD_VALUE));
    }
    assert_eq!(m, fresh(1, 1));
}

/// 7.13 to 7.15, 7.19, 7.21
#[test]
fn destinations() {
    let send = |value: u64| {
        let mut m = fresh(18, 1);
        let named = write(&mut m, 0, 0x830, value).unwrap();
        assert_eq!(read(&mut m, 0, 0x830), Ok(value));
        named
    };
    assert_eq!(send(0xFFFF_FFFF_0000_4041), 0x3_FFFF);
    assert_eq!(send(0xFFFF_FFFF_0000_4841), 0x3_FFFF);
    assert_eq!(send(0x0000_0012_0000_4041), 0);
    assert_eq!(send(0x0000_0100_0000_4041), 0);
    assert_eq!(send(0x0001_0003_0000_4841), 0x3_0000);
    assert_eq!(send(0x0001_FFFC_0000_4841), 0);
    assert_eq!(send(0x0002_FFFF_0000_4841), 0);
    assert_eq!(send(0x0000_0000_0000_4841), 0);
    assert_eq!(send(0x0000_8001_0000_4841), 0x8001);
}

/// 7.16, 7.20
#[test]
fn targets_that_are_not_active() {
    let mut m = fresh(3, 1);
    m.records[1].phase = Phase::Leaving;
    m.records[2].phase = Phase::Left;
    let (second, third) = (m.records[1].clone(), m.records[2].clone());
    assert_eq!(write(&mut m, 0, 0x830, 0x0008_4041), Ok(1));
    assert_eq!(write(&mut m, 0, 0x830, 0x000C_4400), Ok(0));
    assert_eq!((&m.records[1], &m.records[2]), (&second, &third));
}

/// Five vCPUs: 0x41 and the NMI are pending at vCPU 1, 0x41 is level-sensitive at vCPU 2 and in
/// service at vCPU 0, vCPU 3 is leaving.
fn some_pending() -> Module {
    let mut m = fresh(5, 1);
    m.records[0].service = set(&[0x41]);
    m.records[1].pending = set(&[0x41]);
    m.records[1].nmi = true;
    m.records[2].pending = set(&[0x41]);
    m.records[2].pending_level = set(&[0x41]);
    m.records[3].phase = Phase::Leaving;
    m
}

/// 7.16, 7.20: the answer names the targets where the item became pending, and every active target
/// has it afterwards. PL stays.
#[test]
fn an_ipi_names_where_its_item_became_pending() {
    for (value, named) in [
        (0x0008_4041, 0b10001),
        (0x000C_4041, 0b10000),
        (0xFFFF_FFFF_0000_4841, 0b10001),
        (0x0000_000E_0000_4841, 0),
        (0x0000_0003_0000_4041, 0),
        (0x0008_4042, 0b10111),
    ] {
        let mut m = some_pending();
        let vector = value as usize % 256;
        assert_eq!(write(&mut m, 0, 0x830, value), Ok(named), "{value:#x}");
        let mut after = some_pending();
        after.records[0].icr = value;
        for (id, r) in after.records.iter_mut().enumerate() {
            if r.phase == Phase::Active && icr::names(value, 0, id as u32) {
                r.pending.put(vector);
            }
        }
        assert_eq!(m, after, "{value:#x}");
    }
}

/// 7.20: the same of NMIs, where the mark is asked.
#[test]
fn an_nmi_names_where_its_mark_was_clear() {
    for (caller, value, named) in [
        (0, 0x000C_4400, 0b10100),
        (1, 0x000C_4400, 0b10101),
        (0, 0xFFFF_FFFF_0000_4400, 0b10101),
        (4, 0x0000_0001_0000_4400, 0),
        (0, 0x0000_0002_0000_4400, 0b100),
    ] {
        let mut m = some_pending();
        assert_eq!(write(&mut m, caller, 0x830, value), Ok(named), "{value:#x}");
        assert!(m.records[1].nmi);
        assert!(!m.records[3].nmi);
        assert_eq!(write(&mut m, caller, 0x830, value), Ok(0), "{value:#x}");
    }
}

/// 5.3, 7.19, 7.20: one whose targets all had the item answers 0, is stored, and forgets what is in
/// flight, as any IPI.
#[test]
fn an_ipi_that_names_nobody_is_one_all_the_same() {
    for (register, value, icr) in [
        (0x830, 0x0004_4041, 0x0004_4041),
        (0x830, 0xFFFF_FFFF_0000_4400, 0xFFFF_FFFF_0000_4400),
        (0x83F, 0x41, 0),
    ] {
        let mut m = fresh(1, 1);
        m.records[0].pending = set(&[0x41]);
        m.records[0].nmi = true;
        m.records[0].service = set(&[0x41]);
        m.records[0].flight = Some(Item::Vector(0x41));
        let mut after = m.clone();
        after.records[0].icr = icr;
        after.records[0].flight = None;
        assert_eq!(write(&mut m, 0, register, value), Ok(0), "{value:#x}");
        assert_eq!(m, after);
        assert_eq!(non_delivery(&mut m, 0), Err(NOTHING_IN_FLIGHT));
    }
}

fn called(vcpu: u32, call: u32, ecx: u32, rdx: u64) -> Event {
    Event::Call {
        vcpu,
        call,
        ecx,
        rdx,
    }
}

/// 12.21: the bound counts an IPI to every active target, named or not, and none to another.
#[test]
fn sent_is_to_every_active_target() {
    let list = [
        Event::Start { n: 3, vmpl: 1 },
        called(1, 3, 0x83F, 0x41),
        called(0, 3, 0x830, 0x0008_4041),
        called(0, 3, 0x830, 0x0008_4041),
        called(2, 1, DEREGISTER, 0),
        called(0, 3, 0x830, 0x0008_4041),
        called(1, 3, 0x830, 0x000C_4400),
        called(1, 3, 0x830, 0x000C_4400),
    ];
    let played = played(&list, step);
    let answers = [2, 5, 0, 0, 0, 1, 0].map(|value| Answer::Call(Ok(value)));
    assert_eq!(played.answers[1..], answers);
    for (item, sent) in [(Item::Vector(0x41), [3, 4, 2]), (Item::Nmi, [2, 0, 0])] {
        for vcpu in 0..3 {
            let rest = remaining(&list, &played, vcpu, item);
            assert_eq!(rest, Ok(sent[vcpu as usize]), "{item:?} on {vcpu}");
        }
    }
}

/// 7.20, 7.22: a self-IPI of a pending vector, level-sensitive or not, names nobody.
#[test]
fn a_self_ipi_of_a_pending_vector() {
    let mut m = some_pending();
    let (second, third) = (m.records[1].clone(), m.records[2].clone());
    assert_eq!(write(&mut m, 0, 0x83F, 0x41), Ok(1));
    assert_eq!(write(&mut m, 1, 0x83F, 0x41), Ok(0));
    assert_eq!(write(&mut m, 2, 0x83F, 0x41), Ok(0));
    assert_eq!((&m.records[1], &m.records[2]), (&second, &third));
    assert_eq!(write(&mut m, 2, 0x83F, 0x42), Ok(4));
}

/// 7.22, 7.23
#[test]
fn a_self_ipi_stores_nothing() {
    let mut m = fresh(2, 1);
    assert_eq!(write(&mut m, 1, 0x83F, 0x41), Ok(2));
    assert_eq!(read(&mut m, 1, 0x830), Ok(0));
    assert_eq!(m.records[1].pending, set(&[0x41]));
}

/// 8.4, 8.5: each answer is a case of its own, and so is a refusal.
#[test]
fn the_answers_of_an_entry() {
    let mut m = fresh(2, 1);
    assert_eq!(entry(&mut m, 0, true, false, false), Ok(Shown::Nothing));
    m.records[0].pending = set(&[0x41]);
    assert_eq!(
        entry(&mut m, 0, false, false, false),
        Ok(Shown::Window(0x41))
    );
    assert_eq!(entry(&mut m, 0, true, false, false), presented(0x41));
    m.records[0].nmi = true;
    assert_eq!(entry(&mut m, 0, true, false, false), PRESENTED_NMI);
    assert_eq!(entry(&mut m, 2, true, false, false), Err(UNKNOWN_VCPU));
}

/// 8.6, 8.7
#[test]
fn a_held_nmi_lets_vectors_pass() {
    let mut m = fresh(2, 1);
    m.records[0].nmi = true;
    assert_eq!(entry(&mut m, 0, true, true, false), Ok(Shown::Nothing));
    assert_eq!(entry(&mut m, 0, true, false, true), Ok(Shown::Nothing));
    m.records[0].pending = set(&[0x41]);
    assert_eq!(entry(&mut m, 0, true, true, false), Ok(Shown::Window(0x41)));
    assert_eq!(
        entry(&mut m, 0, false, false, true),
        Ok(Shown::Window(0x41))
    );
    assert_eq!(entry(&mut m, 0, true, false, true), presented(0x41));
    assert!(m.records[0].nmi);
    assert_eq!(entry(&mut m, 0, false, false, false), PRESENTED_NMI);
}

/// 6.19, 8.10
#[test]
fn low_vectors_in_entry_and_ppr() {
    let mut m = fresh(2, 1);
    m.records[0].pending = set(&[15]);
    assert_eq!(entry(&mut m, 0, true, false, false), Ok(Shown::Nothing));
    m.records[0].pending = set(&[16]);
    assert_eq!(entry(&mut m, 0, true, false, false), presented(16));
    assert_eq!(read(&mut m, 0, 0x80A), Ok(16));
}

/// 10.11
#[test]
fn low_vectors_in_a_hand_back() {
    let mut m = fresh(2, 1);
    let r = &mut m.records[0];
    r.phase = Phase::Leaving;
    r.pending = set(&[0, 15, 30]);
    r.pending_level = set(&[0, 15]);
    r.service = set(&[8, 30]);
    let mut p = vec![0xFF; 256];
    assert_eq!(hand_back(&mut m, 0, &mut p, false, false), Ok(0x1_0000));
    let mut after = vec![0xFF; 256];
    after[64..128].fill(0);
    after[64] = 15;
    after[65] = 0x04;
    assert_eq!(p, after);
}

/// 9.4 to 9.6
#[test]
fn an_item_returned_meets_a_newer_request() {
    let mut m = allowing(&[0x61]);
    let edge = page(&[(3, 1), (64, 0x61)]);
    let level = page(&[(3, 1), (64, 0x61), (65, 0x04)]);
    for (first, second) in [(&edge, &level), (&level, &edge), (&level, &level)] {
        let mut run = m.clone();
        notice(&mut run, 0, &mut first.clone()).unwrap();
        assert_eq!(entry(&mut run, 0, true, false, false), presented(0x61));
        notice(&mut run, 0, &mut second.clone()).unwrap();
        assert_eq!(non_delivery(&mut run, 0), Ok(0));
        assert_eq!(run.records[0].pending_level, set(&[0x61]));
        assert_eq!(run.records[0].pending, set(&[0x61]));
        assert!(run.records[0].serving_level.is_empty());
    }
    notice(&mut m, 0, &mut edge.clone()).unwrap();
    entry(&mut m, 0, true, false, false).unwrap();
    assert_eq!(non_delivery(&mut m, 0), Ok(0));
    assert!(m.records[0].pending_level.is_empty());
}

/// 10.13, 10.14
#[test]
fn what_a_hand_back_leaves() {
    let mut m = fresh(2, 3);
    let r = &mut m.records[1];
    r.phase = Phase::Leaving;
    r.allowed = set(&[2, 31]);
    r.pending = set(&[31, 0x61, 0x62, 255]);
    r.pending_level = set(&[0x61, 0x62]);
    r.service = set(&[32, 0x63]);
    r.serving_level = set(&[0x63]);
    r.nmi = true;
    r.tpr = 0xAB;
    r.icr = 0x4041;
    r.flight = Some(Item::Vector(32));
    let mut left = fresh(1, 3).records[0].clone();
    left.phase = Phase::Left;
    left.tpr = 0xAB;
    left.icr = 0x4041;
    left.flight = Some(Item::Vector(32));

    let mut p = vec![0xFF; 257];
    assert_eq!(hand_back(&mut m, 1, &mut p, true, true), Ok(0x3_AB03));
    let mut after = vec![0xFF; 257];
    after[192..256].fill(0);
    after[192] = 0x62;
    after[193] = 0x45;
    after[195] = 0x80;
    after[192 + 31] = 0x80;
    after[192 + 32 + 4] = 0x01;
    assert_eq!(p, after);
    assert_eq!(m.records[1], left);
}

/// 5.17, 5.18: ECX bit 9, with bit 8 and without, and every bit above.
#[test]
fn call_4_has_no_form_for_all_vectors() {
    let mut m = allowing(&[0x41]);
    for bit in 9..32 {
        for low in [0x000, 0x041, 0x100, 0x141] {
            assert_eq!(call(&mut m, 0, 4, (1 << bit) + low, 0), Err(BAD_VALUE));
        }
    }
    assert_eq!(m, allowing(&[0x41]));
}

/// 6.29
#[test]
fn a_level_vector_not_allowed_gets_no_eoi() {
    let mut m = allowing(&[0x41]);
    let mut p = page(&[(3, 1), (64, 0x61), (65, 0x04)]);
    assert_eq!(notice(&mut m, 0, &mut p), counted(0, 0));
    assert_eq!(m, allowing(&[0x41]));
    assert_eq!(entry(&mut m, 0, true, false, false), Ok(Shown::Nothing));
    assert_eq!(write(&mut m, 0, 0x80B, 0), Ok(0));
}

/// 4.27, 6.9
#[test]
fn the_tmr_is_pl_joined_with_sl() {
    let mut m = allowing(&[0x61, 0x82]);
    notice(&mut m, 0, &mut page(&[(3, 1), (64, 0x61), (65, 0x04)])).unwrap();
    entry(&mut m, 0, true, false, false).unwrap();
    notice(&mut m, 0, &mut page(&[(3, 1), (64, 0x61)])).unwrap();
    notice(&mut m, 0, &mut page(&[(3, 1), (64, 0x82), (65, 0x04)])).unwrap();
    assert_eq!(read(&mut m, 0, 0x81B), Ok(2));
    assert_eq!(read(&mut m, 0, 0x81C), Ok(4));
}

/// 13.28: what is in flight in a module value may come back before any entry, and is then presented
/// though it was neither pending there nor admitted nor sent.
#[test]
fn what_was_in_flight_at_first_comes_back() {
    let mut m = fresh(2, 1);
    m.records[0].service = set(&[0x41]);
    m.records[0].flight = Some(Item::Vector(0x41));
    assert_eq!(non_delivery(&mut m, 0), Ok(0));
    assert_eq!(non_delivery(&mut m, 0), Err(NOTHING_IN_FLIGHT));
    assert_eq!(entry(&mut m, 0, true, false, false), presented(0x41));
    assert_eq!(entry(&mut m, 0, true, false, false), Ok(Shown::Nothing));
}

/// A record with the machine check's mark set, and otherwise fresh.
fn marked() -> Record {
    let mut r = Record::fresh();
    r.machine_check = true;
    r
}

/// 2.16, 4.29, 4.37, 4.42: it counts as the NMI does, by its mark alone; in flight it is not pending.
#[test]
fn the_machine_check_is_an_item() {
    let bit_9 = [(3, 1), (65, 0x02)];
    let mut in_flight = Record::fresh();
    in_flight.flight = Some(Item::MachineCheck);
    for (record, answer) in [
        (Record::fresh(), counted(1, 0)),
        (marked(), counted(0, 1)),
        (in_flight, counted(1, 0)),
    ] {
        let mut after = record.clone();
        after.allowed = VectorSet::all();
        after.machine_check = true;
        assert_eq!(told(&record, &bit_9), (answer, after));
    }
}

/// 4.41: with 18 in A too these ask for nothing, and bit 18 stays in the page as it did.
#[test]
fn vector_18_is_only_the_machine_check() {
    for low in [0x00, 0x04, 0x40, 0x44] {
        let mut m = allowing(&[18]);
        let mut p = page(&[(3, 1), (64, 18), (65, low), (66, 0x04)]);
        assert_eq!(notice(&mut m, 0, &mut p), counted(0, 0), "{low:#x}");
        assert_eq!(p, page(&[(66, 0x04)]));
        assert_eq!(m, allowing(&[18]));
        let mut p = page(&[(3, 1), (64, 18), (65, low + 0x02), (66, 0x04)]);
        assert_eq!(notice(&mut m, 0, &mut p), counted(1, 0), "{low:#x}");
        let mut after = allowing(&[18]);
        after.records[0].machine_check = true;
        assert_eq!(m, after);
    }
}

/// 4.43: what comes with it is admitted as without it, and allowing 18 later does not bring it back.
#[test]
fn a_machine_check_that_is_not_allowed_is_lost() {
    let mut m = allowing(&[2, 0x41]);
    let mut p = page(&[(3, 1), (64, 0x41), (65, 0x03)]);
    assert_eq!(notice(&mut m, 0, &mut p), counted(2, 0));
    assert_eq!(p, page(&[]));
    assert!(!m.records[0].machine_check);
    assert_eq!(call(&mut m, 0, 4, 0x112, 0), Ok(0));
    p[3] = 1;
    assert_eq!(notice(&mut m, 0, &mut p), counted(0, 0));
    assert_eq!(entry(&mut m, 0, true, false, false), PRESENTED_NMI);
}

/// 8.17, 8.18: IF, shadow, NMI-blocked, TPR and ISR, each way; only its own mark goes.
#[test]
fn the_machine_check_goes_first_and_is_never_held() {
    for (tpr, service) in [(0, &[][..]), (0xFF, &[]), (0, &[0xFF]), (0xFF, &[0xFF])] {
        for flags in 0..8 {
            let mut m = fresh(2, 1);
            m.records[0] = marked();
            m.records[0].nmi = true;
            m.records[0].pending = set(&[0x41, 0xFE]);
            m.records[0].pending_level = set(&[0x41]);
            m.records[0].service = set(service);
            m.records[0].tpr = tpr;
            let mut after = m.clone();
            after.records[0].machine_check = false;
            after.records[0].flight = Some(Item::MachineCheck);
            let shown = entry(&mut m, 0, flags & 1 == 1, flags & 2 == 2, flags & 4 == 4);
            assert_eq!(shown, PRESENTED_MC);
            assert_eq!(m, after);
        }
    }
}

/// 8.17, 8.6, 8.11: one after the other.
#[test]
fn the_order_of_three_items() {
    let mut m = fresh(2, 1);
    m.records[0] = marked();
    m.records[0].nmi = true;
    m.records[0].pending = set(&[0xFF]);
    for shown in [PRESENTED_MC, PRESENTED_NMI, presented(0xFF)] {
        assert_eq!(entry(&mut m, 0, true, false, false), shown);
    }
}

/// 5.19, 8.16: the mark stays and is presented once; then bit 9 is lost.
#[test]
fn taking_18_out_leaves_the_mark() {
    let mut m = allowing(&[18]);
    m.records[0].machine_check = true;
    assert_eq!(call(&mut m, 0, 4, 0x012, 0), Ok(0));
    assert!(m.records[0].machine_check);
    assert_eq!(entry(&mut m, 0, true, false, false), PRESENTED_MC);
    let mut p = page(&[(3, 1), (65, 0x02)]);
    assert_eq!(notice(&mut m, 0, &mut p), counted(0, 0));
    assert_eq!(entry(&mut m, 0, true, false, false), Ok(Shown::Nothing));
}

/// 7.27: neither with the vector 18, which no Fixed IPI takes, nor as an NMI that has it.
#[test]
fn no_guest_sends_a_machine_check() {
    for kind in 0..8 {
        for shorthand in 0..4 {
            let value = 0x1_0000_4012 + kind * 0x100 + shorthand * 0x4_0000;
            let mut m = fresh(2, 1);
            let nmi = kind == 4 && (shorthand == 0 || shorthand == 3);
            let answer = if nmi { Ok(2) } else { Err(BAD_VALUE) };
            assert_eq!(write(&mut m, 0, 0x830, value), answer, "{value:#x}");
            assert!(m.records.iter().all(|r| !r.machine_check));
            assert_eq!(m.records[1].nmi, nmi);
        }
    }
    let mut m = allowing(&[18]);
    assert_eq!(write(&mut m, 0, 0x83F, 18), Err(BAD_VALUE));
    assert_eq!(m, allowing(&[18]));
}

/// 9.9: a newer one that came in between and the returned one are one.
#[test]
fn a_machine_check_returned_meets_a_newer_one() {
    let mut m = allowing(&[18]);
    m.records[0].machine_check = true;
    assert_eq!(entry(&mut m, 0, true, false, false), PRESENTED_MC);
    let mut p = page(&[(3, 1), (65, 0x02)]);
    assert_eq!(notice(&mut m, 0, &mut p), counted(1, 0));
    assert_eq!(non_delivery(&mut m, 0), Ok(0));
    assert_eq!(non_delivery(&mut m, 0), Err(NOTHING_IN_FLIGHT));
    assert_eq!(entry(&mut m, 0, false, true, true), PRESENTED_MC);
    assert_eq!(entry(&mut m, 0, true, false, false), Ok(Shown::Nothing));
}

/// 5.3, 5.4, 8.3, 9.9
#[test]
fn what_forgets_a_machine_check_in_flight() {
    let mut m = fresh(2, 1);
    m.records[0] = marked();
    assert_eq!(entry(&mut m, 0, true, false, false), PRESENTED_MC);
    assert_eq!(call(&mut m, 0, 4, 0x113, 0), Err(BAD_VALUE));
    assert_eq!(write(&mut m, 0, 0x830, 0x4012), Err(BAD_VALUE));
    assert_eq!(m.records[0].flight, Some(Item::MachineCheck));
    let mut by_call = m.clone();
    assert_eq!(call(&mut by_call, 0, 4, 0x012, 0), Ok(0));
    let mut by_entry = m.clone();
    let nothing = entry(&mut by_entry, 0, true, false, false);
    assert_eq!(nothing, Ok(Shown::Nothing));
    for mut m in [by_call, by_entry] {
        assert_eq!(m.records[0].flight, None);
        assert_eq!(non_delivery(&mut m, 0), Err(NOTHING_IN_FLIGHT));
        assert!(!m.records[0].machine_check);
    }
    assert_eq!(non_delivery(&mut m, 0), Ok(0));
    assert_eq!(m.records[0], marked());
}

/// 10.13, 10.17, 13.10: bit 9 is the mark, and everything allowed has 18.
#[test]
fn a_handed_back_machine_check_reads_back() {
    let all_but_18: Vec<usize> = (0..256).filter(|&v| v != 18).collect();
    for vmpl in 1..=3 {
        for mark in [false, true] {
            let mut m = fresh(2, vmpl);
            m.records[0].machine_check = mark;
            m.records[0].phase = Phase::Leaving;
            let mut p = vec![0xFF; 256];
            assert!(hand_back(&mut m, 0, &mut p, true, false).is_ok());
            assert!(!m.records[0].machine_check);
            set_bit(&mut p, 2, 7 + vmpl as usize);
            let items = admitted(&p, vmpl, &VectorSet::all()).items();
            let expected = if mark {
                vec![Item::MachineCheck]
            } else {
                vec![]
            };
            assert_eq!(items, expected);
            assert!(admitted(&p, vmpl, &set(&all_but_18)).items().is_empty());
        }
    }
}

/// 12.15, 12.21, 12.22, 13.27: admitted twice, once while pending, and presented and returned once; an
/// IPI of 18 and bit 9 where 18 is not allowed add nothing.
#[test]
fn the_bound_counts_machine_checks() {
    let notice = |vcpu| Event::Notice {
        vcpu,
        page: page(&[(3, 1), (65, 0x02)]),
    };
    let list = [
        Event::Start { n: 2, vmpl: 1 },
        called(0, 4, 0x112, 0),
        notice(0),
        notice(0),
        notice(1),
        called(1, 3, 0x830, 0x4012),
        Event::Entry {
            vcpu: 0,
            if_set: false,
            shadow: true,
            blocked: true,
        },
        Event::NonDelivery { vcpu: 0 },
        called(0, 4, 0x012, 0),
        notice(0),
    ];
    let played = played(&list, step);
    for (vcpu, item, rest) in [
        (0, Item::MachineCheck, 2),
        (1, Item::MachineCheck, 0),
        (0, Item::Nmi, 0),
        (0, Item::Vector(18), 0),
    ] {
        assert_eq!(remaining(&list, &played, vcpu, item), Ok(rest), "{item:?}");
    }
}
