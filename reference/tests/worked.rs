//! The cases worked here (14.21 to 14.44, 14.46 to 14.71, 14.73 to 14.81), on an implementation that was written apart from the definitions.

mod common;

use common::*;
use reference::calls::call;
use reference::codes::*;
use reference::events::{allow, entry, hand_back, non_delivery, notice, Shown};
use reference::registers::{kind, Kind};
use reference::set::VectorSet;
use reference::state::{Item, Module, Phase, Record};

const EOI: u32 = 0x80B;
const ICR: u32 = 0x830;
const SELF_IPI: u32 = 0x83F;

fn presented(vector: usize) -> Shown {
    Shown::Presented(Item::Vector(vector))
}

/// A page of 0xFF but for these.
fn ones(bytes: &[(usize, u8)]) -> Vec<u8> {
    let mut page = vec![0xFF; 256];
    for &(offset, byte) in bytes {
        page[offset] = byte;
    }
    page
}

/// What 14.21 says of a page whose descriptor begins at this byte.
fn cleared(at: usize, byte_3: u8) -> Vec<u8> {
    let mut page = ones(&[(3, byte_3), (at, 0), (at + 1, 0xB8), (at + 3, 0x7F)]);
    page[at + 4..at + 32].fill(0);
    page
}

/// 14.21, 14.22, 14.23
#[test]
fn what_a_notice_clears() {
    let mut p = ones(&[]);
    assert_eq!(notice(&mut fresh(2, 1), 0, &mut p), counted(0, 0));
    assert_eq!(p, cleared(64, 0xFE));
    let mut p = ones(&[(65, 0xBF)]);
    assert_eq!(notice(&mut fresh(2, 1), 0, &mut p), counted(0, 0));
    assert_eq!(p, ones(&[(3, 0xFE), (64, 0), (65, 0xB8)]));
    let mut p = ones(&[]);
    assert_eq!(notice(&mut fresh(2, 3), 0, &mut p), counted(0, 0));
    assert_eq!(p, cleared(192, 0xFB));
}

/// 14.24, 14.39
#[test]
fn what_a_hand_back_writes_and_leaves() {
    let mut m = fresh(2, 1);
    let r = &mut m.records[0];
    r.pending = set(&[0x41, 0x61]);
    r.pending_level = set(&[0x61]);
    r.service = set(&[0x33, 0x52]);
    r.serving_level = set(&[0x33]);
    r.nmi = true;
    r.tpr = 0x20;
    r.phase = Phase::Leaving;
    let mut p = ones(&[]);
    assert_eq!(hand_back(&mut m, 0, &mut p, false, true), Ok(73730));
    let mut q = ones(&[]);
    q[64..128].fill(0);
    for (offset, byte) in [(64, 0x61), (65, 0x45), (72, 0x02), (106, 0x04)] {
        q[offset] = byte;
    }
    assert_eq!(p, q);
    let mut left = fresh(2, 1);
    left.records[0].tpr = 0x20;
    left.records[0].phase = Phase::Left;
    assert_eq!(m, left);
}

/// 14.25, 14.26, 14.27
#[test]
fn registers_and_eois() {
    for (service, tpr, ppr) in [
        (&[0x41][..], 0x40, 0x40),
        (&[0x41], 0x3F, 0x40),
        (&[], 0x2C, 0x2C),
    ] {
        let mut m = fresh(2, 1);
        m.records[0].service = set(service);
        m.records[0].tpr = tpr;
        assert_eq!(read(&mut m, 0, 0x80A), Ok(ppr));
    }
    let mut m = fresh(2, 1);
    m.records[0].service = set(&[0x41, 0x61]);
    m.records[0].serving_level = set(&[0x41]);
    for value in [0, 0x41, 0] {
        assert_eq!(write(&mut m, 0, EOI, 0), Ok(value));
    }
    let mut m = fresh(2, 1);
    m.records[0].service = set(&[0x3F]);
    m.records[0].pending = set(&[0xE0]);
    m.records[0].pending_level = set(&[0x20]);
    m.records[0].serving_level = set(&[0xFF]);
    for (register, value) in [
        (0x811, 1 << 31),
        (0x818, 0),
        (0x819, 1),
        (0x81F, 1 << 31),
        (0x827, 1),
    ] {
        assert_eq!(read(&mut m, 0, register), Ok(value));
    }
}

/// 14.28
#[test]
fn values_that_the_icr_does_not_take() {
    for value in [
        0x5041,
        0x6041,
        0x14041,
        0x24041,
        0x104041,
        0x8000_4041,
        0x4141,
        0x4241,
        0x4341,
        0x4541,
        0x4641,
        0x4741,
        0x401E,
        0x20_0000_401E,
        0x44400,
        0x44441,
        0x84400,
        0x84441,
    ] {
        assert_eq!(
            write(&mut fresh(2, 1), 0, ICR, value),
            Err(BAD_VALUE),
            "{value:#x}"
        );
    }
}

/// 14.29, 14.30; of 14.48 what is on 18 vCPUs
#[test]
fn whom_an_ipi_reaches() {
    for (value, mask) in [
        (0xC4400, 0x3FFFE),
        (0x44041, 1),
        (0x84041, 0x3FFFF),
        (0xFFFF_FFFF_0000_4041, 0x3FFFF),
        (0xFFFF_FFFF_0000_4841, 0x3FFFF),
        (0x0001_0003_0000_4841, 0x30000),
        (0x0000_0006_0000_4841, 6),
        (0x0000_0005_0000_4041, 0x20),
        (0x0000_0012_0000_4041, 0),
        (0x0000_0020_0000_4041, 0),
        (0x0000_00FF_0000_4041, 0),
    ] {
        assert_eq!(
            write(&mut fresh(18, 1), 0, ICR, value),
            Ok(mask),
            "{value:#x}"
        );
    }
}

/// 14.46
#[test]
fn bits_14_and_15_of_the_icr() {
    for bits in BITS_14_AND_15 {
        for (low, shown) in [
            (0x41, presented(0x41)),
            (0x400, Shown::Presented(Item::Nmi)),
        ] {
            let mut m = fresh(2, 1);
            let value = 0x1_0000_0000 + low + bits;
            assert_eq!(write(&mut m, 0, ICR, value), Ok(2), "{value:#x}");
            assert_eq!(entry(&mut m, 1, true, false, false), Ok(shown));
            assert_eq!(read(&mut m, 0, ICR), Ok(value));
        }
    }
}

/// 14.47
#[test]
fn bit_15_of_the_icr_is_no_level() {
    let mut m = fresh(2, 1);
    assert_eq!(write(&mut m, 0, ICR, 0x48041), Ok(1));
    assert_eq!(read(&mut m, 0, 0x822), Ok(2));
    assert_eq!(read(&mut m, 0, 0x81A), Ok(0));
    assert_eq!(entry(&mut m, 0, true, false, false), Ok(presented(0x41)));
    assert_eq!(write(&mut m, 0, EOI, 0), Ok(0));
}

/// 14.48
#[test]
fn ipis_by_other_vectors_modes_and_callers() {
    for (caller, value, shown) in [
        (1, 0xFFFF_FFFF_0004_48FF, presented(0xFF)),
        (0, 0x1_0000_401F, presented(0x1F)),
        (0, 0x2_0000_0C1E, Shown::Presented(Item::Nmi)),
        (0, 0xC_4041, presented(0x41)),
    ] {
        let mut m = fresh(2, 1);
        assert_eq!(write(&mut m, caller, ICR, value), Ok(2), "{value:#x}");
        assert_eq!(entry(&mut m, 1, true, false, false), Ok(shown));
        assert_eq!(read(&mut m, caller, ICR), Ok(value));
    }
}

/// 14.48: an NMI to every vCPU
#[test]
fn an_nmi_to_the_destination_of_all_ones() {
    let mut m = fresh(2, 1);
    assert_eq!(write(&mut m, 0, ICR, 0xFFFF_FFFF_0000_4400), Ok(3));
}

/// 14.31, 14.32, 14.40
#[test]
fn what_is_stored_and_answered() {
    let mut m = fresh(2, 1);
    assert_eq!(write(&mut m, 1, SELF_IPI, 0x41), Ok(2));
    assert_eq!(read(&mut m, 1, ICR), Ok(0));
    assert_eq!(write(&mut m, 0, 0x808, 0x2F), Ok(0));
    assert_eq!(read(&mut m, 0, 0x808), Ok(0x2F));
    assert_eq!(write(&mut m, 0, ICR, 0x12_0000_4041), Ok(0));
    assert_eq!(read(&mut m, 0, ICR), Ok(0x12_0000_4041));
    for (number, ecx) in [(0, 7), (1, LEAVE), (1, REGISTER)] {
        assert_eq!(call(&mut fresh(2, 1), 0, number, ecx, 7), Ok(0));
    }
}

/// 14.33
#[test]
fn how_many_registers_have_each_kind() {
    let count = |k: Kind| (0x800..0x900).filter(|&r| kind(r) == k).count();
    let counts = [Kind::Read, Kind::Write, Kind::Both, Kind::None].map(count);
    assert_eq!(counts, [27, 2, 2, 225]);
}

/// 14.34, 14.35
#[test]
fn what_holds_an_item_back() {
    let pending = |nmi: bool| {
        let mut m = fresh(2, 1);
        m.records[0].pending = set(&[0x41]);
        m.records[0].nmi = nmi;
        m
    };
    assert_eq!(
        entry(&mut pending(false), 0, false, false, false),
        Ok(Shown::Window(0x41))
    );
    assert_eq!(
        entry(&mut pending(false), 0, true, true, false),
        Ok(Shown::Window(0x41))
    );
    let mut m = pending(true);
    assert_eq!(
        entry(&mut m, 0, true, false, false),
        Ok(Shown::Presented(Item::Nmi))
    );
    assert_eq!(entry(&mut m, 0, true, false, false), Ok(presented(0x41)));
    assert_eq!(
        entry(&mut pending(true), 0, true, false, true),
        Ok(presented(0x41))
    );
    assert_eq!(
        entry(&mut pending(true), 0, true, true, false),
        Ok(Shown::Window(0x41))
    );
}

/// 14.42, 14.43, 14.49
#[test]
fn what_an_entry_leaves() {
    let mut m = fresh(2, 1);
    m.records[0].pending = set(&[0x41]);
    m.records[0].tpr = 0x3F;
    assert_eq!(entry(&mut m, 0, true, false, false), Ok(presented(0x41)));
    let mut looked = m.clone();
    for (register, value) in [(0x822, 0), (0x812, 2)] {
        assert_eq!(read(&mut looked, 0, register), Ok(value));
    }
    let mut sent = m.clone();
    assert_eq!(write(&mut sent, 0, ICR, 0x1_0000_4041), Ok(2));
    assert_eq!(non_delivery(&mut sent, 0), Err(NOTHING_IN_FLIGHT));
    assert_eq!(entry(&mut m, 0, true, false, false), Ok(Shown::Nothing));
    assert_eq!(non_delivery(&mut m, 0), Err(NOTHING_IN_FLIGHT));
}

/// 14.36
#[test]
fn a_level_vector_comes_back_as_one() {
    let mut m = allowing(&[0x61]);
    assert_eq!(
        notice(&mut m, 0, &mut page(&[(3, 1), (64, 0x61), (65, 0x04)])),
        counted(1, 0)
    );
    assert_eq!(entry(&mut m, 0, true, false, false), Ok(presented(0x61)));
    assert_eq!(non_delivery(&mut m, 0), Ok(0));
    for (register, value) in [(0x823, 2), (0x813, 0), (0x81B, 2)] {
        assert_eq!(read(&mut m, 0, register), Ok(value));
    }
    assert_eq!(entry(&mut m, 0, true, false, false), Ok(presented(0x61)));
    assert_eq!(write(&mut m, 0, EOI, 0), Ok(0x61));
}

/// 14.37, 14.38
#[test]
fn nmis() {
    let mut m = allowing(&[2]);
    assert_eq!(
        notice(&mut m, 0, &mut page(&[(3, 1), (65, 0x01)])),
        counted(1, 0)
    );
    assert_eq!(
        entry(&mut m, 0, false, false, false),
        Ok(Shown::Presented(Item::Nmi))
    );
    assert_eq!(non_delivery(&mut m, 0), Ok(0));
    assert_eq!(
        entry(&mut m, 0, false, false, false),
        Ok(Shown::Presented(Item::Nmi))
    );
    let mut m = fresh(2, 1);
    assert_eq!(write(&mut m, 0, ICR, 0xC4400), Ok(2));
    assert_eq!(
        entry(&mut m, 1, false, false, false),
        Ok(Shown::Presented(Item::Nmi))
    );
    assert_eq!(entry(&mut m, 0, true, false, false), Ok(Shown::Nothing));
}

/// 14.41, but for its tallies
#[test]
fn a_worked_list() {
    let mut m: Module = fresh(1, 1);
    let shown = Ok(presented(0x41));
    assert_eq!(call(&mut m, 0, 4, 0x141, 0), Ok(0));
    assert_eq!(
        notice(&mut m, 0, &mut page(&[(3, 1), (64, 0x41)])),
        counted(1, 0)
    );
    assert_eq!(entry(&mut m, 0, true, false, false), shown);
    assert_eq!(non_delivery(&mut m, 0), Ok(0));
    assert_eq!(entry(&mut m, 0, true, false, false), shown);
    assert_eq!(write(&mut m, 0, SELF_IPI, 0x41), Ok(1));
    assert_eq!(write(&mut m, 0, ICR, 0x1041), Err(BAD_VALUE));
    assert_eq!(write(&mut m, 0, EOI, 0), Ok(0));
    assert_eq!(entry(&mut m, 0, true, false, false), shown);
    assert_eq!(notice(&mut m, 0, &mut []), Err(SHORT_PAGE));
    assert_eq!(non_delivery(&mut m, 1), Err(UNKNOWN_VCPU));
    assert_eq!(call(&mut m, 0, 1, DEREGISTER, 0), Ok(0));
    let mut p = page(&[]);
    assert_eq!(hand_back(&mut m, 0, &mut p, true, false), Ok(65537));
    assert_eq!(p, page(&[(104, 0x02)]));
}

/// 14.44, the tallies apart
#[test]
fn a_worked_list_of_two() {
    let mut m: Module = fresh(2, 1);
    let nmi = Ok(Shown::Presented(Item::Nmi));
    assert_eq!(call(&mut m, 0, 4, 0x102, 0), Ok(0));
    for answer in [counted(1, 0), counted(0, 1)] {
        let mut p = page(&[(3, 1), (65, 0x01)]);
        assert_eq!(notice(&mut m, 0, &mut p), answer);
    }
    assert_eq!(write(&mut m, 0, ICR, 0xC4400), Ok(2));
    assert_eq!(entry(&mut m, 1, true, false, false), nmi);
    assert_eq!(non_delivery(&mut m, 1), Ok(0));
    assert_eq!(entry(&mut m, 1, true, false, false), nmi);
    assert_eq!(write(&mut m, 1, ICR, 0x84041), Ok(3));
    assert_eq!(call(&mut m, 0, 1, DEREGISTER, 0), Ok(0));
    assert_eq!(write(&mut m, 1, ICR, 0x84041), Ok(0));
    let mut p = page(&[]);
    assert_eq!(hand_back(&mut m, 0, &mut p, true, false), Ok(65537));
    assert_eq!(p, page(&[(65, 0x41), (72, 0x02)]));
    assert_eq!(call(&mut m, 1, 1, 0, 0), Ok(0));
    let mut p = page(&[]);
    assert_eq!(hand_back(&mut m, 1, &mut p, false, true), Ok(65538));
    assert_eq!(p, page(&[(65, 0x40), (72, 0x02)]));
}

/// A record with these pending, and otherwise fresh.
fn pending(vectors: &[usize], nmi: bool) -> Record {
    let mut r = Record::fresh();
    r.pending = set(vectors);
    r.nmi = nmi;
    r
}

/// 14.42: vCPU 0 after an entry that presents 0x41
fn shown_41() -> Module {
    let mut m = fresh(2, 1);
    m.records[0].pending = set(&[0x41]);
    m.records[0].tpr = 0x3F;
    assert_eq!(entry(&mut m, 0, true, false, false), Ok(presented(0x41)));
    m
}

/// 14.50
#[test]
fn a_superfluous_notice() {
    let (answer, after) = told(&pending(&[0x41], false), &[(3, 1), (64, 0x41)]);
    assert_eq!(answer, counted(0, 1));
    assert_eq!(after.pending, set(&[0x41]));
    let mut m = fresh(2, 1);
    m.records[0] = pending(&[0x41], false);
    m.records[0].allowed = set(&[0x41]);
    let mut p = page(&[(3, 1), (64, 0x41)]);
    assert_eq!(notice(&mut m, 0, &mut p), counted(0, 1));
    assert_eq!(p, page(&[]));
    let (answer, _) = told(&pending(&[0x41], false), &[(64, 0x41)]);
    assert_eq!(answer, counted(0, 0));
}

/// 14.51
#[test]
fn a_notice_of_three_items() {
    let many = [(3, 1), (65, 0x41), (72, 0x02), (74, 0x04)];
    for (record, answer) in [
        (pending(&[], false), counted(3, 0)),
        (pending(&[0x41], true), counted(1, 2)),
        (pending(&[], true), counted(2, 1)),
        (pending(&[0x41, 0x52], true), counted(0, 3)),
    ] {
        assert_eq!(told(&record, &many).0, answer);
    }
}

/// 14.52
#[test]
fn level_sensitive_and_edge_requests_merge() {
    let level = [(3, 1), (64, 0x61), (65, 0x04)];
    let (answer, after) = told(&pending(&[0x61], false), &level);
    assert_eq!(answer, counted(0, 1));
    assert_eq!(after.pending_level, set(&[0x61]));
    let mut as_level = pending(&[0x61], false);
    as_level.pending_level = set(&[0x61]);
    let (answer, after) = told(&as_level, &[(3, 1), (64, 0x61)]);
    assert_eq!(answer, counted(0, 1));
    assert_eq!(after.pending_level, set(&[0x61]));
    let marked = [(3, 1), (64, 0x61), (65, 0x44), (76, 0x02)];
    assert_eq!(told(&Record::fresh(), &marked).0, counted(1, 0));
    assert_eq!(told(&pending(&[0x61], false), &marked).0, counted(0, 1));
}

/// 14.53
#[test]
fn what_was_not_pending() {
    let edge = [(3, 1), (64, 0x41)];
    let mut serving = Record::fresh();
    serving.service = set(&[0x41]);
    assert_eq!(told(&serving, &edge).0, counted(1, 0));
    assert_eq!(told(&shown_41().records[0], &edge).0, counted(1, 0));
    let mut level_alone = Record::fresh();
    level_alone.pending_level = set(&[0x41]);
    assert_eq!(told(&level_alone, &edge).0, counted(1, 0));
}

/// 14.54
#[test]
fn whom_an_ipi_names() {
    let mut at_1 = fresh(2, 1);
    at_1.records[1] = pending(&[0x41], true);
    for (caller, register, value, named) in [
        (0, ICR, 0x84041, 1),
        (0, ICR, 0x1_0000_4042, 2),
        (0, ICR, 0x1_0000_4400, 0),
        (0, ICR, 0xFFFF_FFFF_0000_4400, 1),
        (1, SELF_IPI, 0x41, 0),
        (1, SELF_IPI, 0x42, 2),
    ] {
        let mut m = at_1.clone();
        assert_eq!(write(&mut m, caller, register, value), Ok(named));
    }
    let mut m = at_1.clone();
    assert_eq!(write(&mut m, 0, ICR, 0x84041), Ok(1));
    assert_eq!(m.records[0].pending, set(&[0x41]));
    assert_eq!(m.records[1].pending, set(&[0x41]));
    let mut m = fresh(2, 1);
    m.records[1].service = set(&[0x41]);
    assert_eq!(write(&mut m, 0, ICR, 0x1_0000_4041), Ok(2));
}

/// 14.55
#[test]
fn an_ipi_that_names_nobody() {
    let mut m = shown_41();
    m.records[0].pending = set(&[0x42]);
    assert_eq!(write(&mut m, 0, ICR, 0x44042), Ok(0));
    assert_eq!(non_delivery(&mut m.clone(), 0), Err(NOTHING_IN_FLIGHT));
    assert_eq!(read(&mut m, 0, ICR), Ok(0x44042));
    let mut m = shown_41();
    m.records[0].pending = set(&[0x42]);
    assert_eq!(write(&mut m, 0, SELF_IPI, 0x42), Ok(0));
    assert_eq!(non_delivery(&mut m.clone(), 0), Err(NOTHING_IN_FLIGHT));
    assert_eq!(read(&mut m, 0, ICR), Ok(0));
}

/// 14.56
#[test]
fn the_most_that_a_notice_admits() {
    let all: Vec<usize> = (0..256).collect();
    let mut full = pending(&all, true);
    full.machine_check = true;
    for (record, answer) in [(Record::fresh(), counted(227, 0)), (full, counted(0, 227))] {
        let mut m = fresh(2, 1);
        m.records[0] = record;
        m.records[0].allowed = set(&all);
        assert_eq!(notice(&mut m, 0, &mut ones(&[])), answer);
    }
    let (_, after) = told(&pending(&[0x52], true), &[(3, 1), (64, 0x41)]);
    assert_eq!(after.pending, set(&[0x41, 0x52]));
    assert!(after.nmi);
}

/// 14.57
#[test]
fn the_last_of_32_vcpus() {
    for (register, value, named) in [
        (ICR, 0x84041, 0xFFFF_FFFF),
        (ICR, 0xC4041, 0x7FFF_FFFF),
        (ICR, 0x44041, 0x8000_0000),
        (ICR, 0x1F_0000_4041, 0x8000_0000),
        (ICR, 0x0001_8000_0000_4841, 0x8000_0000),
        (SELF_IPI, 0x41, 0x8000_0000),
    ] {
        assert_eq!(write(&mut fresh(32, 1), 31, register, value), Ok(named));
    }
}

/// 14.58
#[test]
fn places_at_n_and_above_are_not_named() {
    let mut m = fresh(32, 1);
    m.n = 2;
    assert_eq!(write(&mut m, 0, ICR, 0x84041), Ok(3));
    assert_eq!(m.records[2], Record::fresh());
}

const MACHINE_CHECK: Shown = Shown::Presented(Item::MachineCheck);

/// vCPU 0 of two with both marks set, 0xFF in service and a TPR of 0xFF (14.63).
fn both_marks() -> Module {
    let mut m = fresh(2, 1);
    m.records[0] = pending(&[], true);
    m.records[0].machine_check = true;
    m.records[0].service = set(&[0xFF]);
    m.records[0].tpr = 0xFF;
    m
}

/// 14.59
#[test]
fn a_machine_check_is_admitted() {
    let mut m = allowing(&[18]);
    for answer in [counted(1, 0), counted(0, 1)] {
        let mut p = page(&[(3, 1), (65, 0x02)]);
        assert_eq!(notice(&mut m, 0, &mut p), answer);
        assert_eq!(p, page(&[]));
        assert!(m.records[0].machine_check);
    }
}

/// 14.60
#[test]
fn a_machine_check_that_is_not_allowed() {
    let all_but_18: Vec<usize> = (0..256).filter(|&v| v != 18).collect();
    let mut m = allowing(&all_but_18);
    let mut p = page(&[(3, 1), (65, 0x02)]);
    assert_eq!(notice(&mut m, 0, &mut p), counted(0, 0));
    assert_eq!(p, page(&[]));
    assert_eq!(m, allowing(&all_but_18));
    let all: Vec<usize> = (0..256).collect();
    let mut m = allowing(&all);
    assert_eq!(notice(&mut m, 0, &mut page(&[(65, 0x02)])), counted(0, 0));
    assert_eq!(m, allowing(&all));
}

/// 14.61
#[test]
fn a_machine_check_among_three_items() {
    let three = [(3, 1), (64, 0x41), (65, 0x03)];
    let (answer, after) = told(&Record::fresh(), &three);
    assert_eq!(answer, counted(3, 0));
    let mut expected = pending(&[0x41], true);
    expected.machine_check = true;
    expected.allowed = VectorSet::all();
    assert_eq!(after, expected);
    let mut marked = Record::fresh();
    marked.machine_check = true;
    let (answer, after) = told(&marked, &three);
    assert_eq!(answer, counted(2, 1));
    assert_eq!(after, expected);
    for (allowed, nmi, machine_check, vectors) in [
        (2, true, false, &[][..]),
        (18, false, true, &[]),
        (0x41, false, false, &[0x41]),
    ] {
        let mut m = allowing(&[allowed]);
        assert_eq!(notice(&mut m, 0, &mut page(&three)), counted(1, 0));
        assert_eq!(m.records[0].nmi, nmi);
        assert_eq!(m.records[0].machine_check, machine_check);
        assert_eq!(m.records[0].pending, set(vectors));
    }
}

/// 14.62
#[test]
fn what_is_no_machine_check() {
    let mut m = fresh(2, 1);
    m.records[0].allowed = VectorSet::all();
    for (bytes, left) in [
        (&[(3, 1), (64, 18)][..], &[][..]),
        (&[(3, 1), (64, 18), (65, 0x04)], &[]),
        (&[(3, 1), (65, 0x40), (66, 0x04)], &[(66, 0x04)]),
    ] {
        let before = m.clone();
        let mut p = page(bytes);
        assert_eq!(notice(&mut m, 0, &mut p), counted(0, 0));
        assert_eq!(p, page(left));
        assert_eq!(m, before);
    }
}

/// 14.63
#[test]
fn nothing_holds_a_machine_check_back() {
    let mut m = both_marks();
    let mut after = m.clone();
    after.records[0].machine_check = false;
    after.records[0].flight = Some(Item::MachineCheck);
    assert_eq!(entry(&mut m, 0, false, true, true), Ok(MACHINE_CHECK));
    assert_eq!(m, after);
    assert_eq!(
        entry(&mut m, 0, true, false, false),
        Ok(Shown::Presented(Item::Nmi))
    );
    assert_eq!(
        entry(&mut both_marks(), 0, true, false, false),
        Ok(MACHINE_CHECK)
    );
    let mut m = fresh(2, 1);
    m.records[0] = pending(&[0x1F], false);
    m.records[0].machine_check = true;
    let mut window = m.clone();
    window.records[0].pending = set(&[0x41]);
    assert_eq!(
        entry(&mut window, 0, false, false, false),
        Ok(MACHINE_CHECK)
    );
    for shown in [MACHINE_CHECK, presented(0x1F)] {
        assert_eq!(entry(&mut m, 0, true, false, false), Ok(shown));
    }
}

/// 14.64
#[test]
fn a_machine_check_comes_back() {
    let mut m = both_marks();
    let before = m.clone();
    assert_eq!(entry(&mut m, 0, false, true, true), Ok(MACHINE_CHECK));
    let mut called = m.clone();
    assert_eq!(non_delivery(&mut m, 0), Ok(0));
    assert_eq!(m, before);
    assert_eq!(entry(&mut m, 0, false, true, true), Ok(MACHINE_CHECK));
    assert_eq!(call(&mut called, 0, 0, 0, 0), Ok(0));
    assert_eq!(non_delivery(&mut called, 0), Err(NOTHING_IN_FLIGHT));
}

/// 14.65
#[test]
fn a_machine_check_is_handed_back() {
    let mut both = pending(&[0x41], true);
    both.machine_check = true;
    let mut alone = Record::fresh();
    alone.machine_check = true;
    for (mut record, bytes) in [
        (alone, &[(65, 0x02)][..]),
        (both, &[(65, 0x43), (72, 0x02)]),
    ] {
        record.phase = Phase::Leaving;
        let mut m = fresh(2, 1);
        m.records[0] = record;
        let mut p = page(&[]);
        assert_eq!(hand_back(&mut m, 0, &mut p, true, false), Ok(65_537));
        assert_eq!(p, page(bytes));
        let mut left = fresh(2, 1);
        left.records[0].phase = Phase::Left;
        assert_eq!(m, left);
    }
}

/// 14.66
#[test]
fn call_4_takes_18() {
    let mut m = fresh(2, 1);
    assert_eq!(call(&mut m, 0, 4, 0x112, 0), Ok(0));
    assert_eq!(m, allowing(&[18]));
    for ecx in [0x111, 0x113, 0x011, 0x013, 0x312] {
        assert_eq!(call(&mut m, 0, 4, ecx, 0), Err(BAD_VALUE), "{ecx:#x}");
        assert_eq!(m, allowing(&[18]));
    }
    assert_eq!(call(&mut m, 0, 4, 0x012, 0), Ok(0));
    assert_eq!(m, fresh(2, 1));
}

/// 14.67
#[test]
fn a_pending_machine_check_outlives_its_permission() {
    let mut m = allowing(&[18]);
    let mut p = page(&[(3, 1), (65, 0x02)]);
    assert_eq!(notice(&mut m, 0, &mut p), counted(1, 0));
    assert_eq!(call(&mut m, 0, 4, 0x012, 0), Ok(0));
    assert_eq!(m.records[0].allowed, set(&[]));
    assert_eq!(entry(&mut m, 0, false, true, true), Ok(MACHINE_CHECK));
}

/// 14.68
#[test]
fn no_ipi_sends_a_machine_check() {
    let mut m = fresh(2, 1);
    for (register, value) in [(ICR, 0x4012), (ICR, 0x44012), (SELF_IPI, 18)] {
        assert_eq!(write(&mut m, 0, register, value), Err(BAD_VALUE));
        assert_eq!(m, fresh(2, 1));
    }
    assert_eq!(write(&mut m, 0, ICR, 0xC4400), Ok(2));
    assert!(m.records[1].nmi && !m.records[1].machine_check);
}

/// 14.69
#[test]
fn registers_do_not_know_the_machine_check() {
    let mut m = fresh(2, 1);
    m.records[0].service = set(&[0x41]);
    m.records[0].machine_check = true;
    assert_eq!(entry(&mut m, 0, true, false, false), Ok(MACHINE_CHECK));
    for (register, value) in [
        (0x80A, 0x40),
        (0x812, 2),
        (0x810, 0),
        (0x818, 0),
        (0x820, 0),
    ] {
        assert_eq!(read(&mut m.clone(), 0, register), Ok(value));
    }
    assert_eq!(write(&mut m, 0, EOI, 0), Ok(0));
    assert_eq!(m, fresh(2, 1));
}

/// 14.70, the tallies apart
#[test]
fn a_worked_list_of_machine_checks() {
    let mut m = fresh(1, 1);
    let check = |m: &mut Module| notice(m, 0, &mut page(&[(3, 1), (65, 0x02)]));
    assert_eq!(call(&mut m, 0, 4, 0x112, 0), Ok(0));
    assert_eq!(check(&mut m), counted(1, 0));
    assert_eq!(check(&mut m), counted(0, 1));
    assert_eq!(entry(&mut m, 0, false, true, true), Ok(MACHINE_CHECK));
    assert_eq!(non_delivery(&mut m, 0), Ok(0));
    assert_eq!(entry(&mut m, 0, false, true, true), Ok(MACHINE_CHECK));
    assert_eq!(check(&mut m), counted(1, 0));
    assert_eq!(call(&mut m, 0, 4, 0x012, 0), Ok(0));
    assert_eq!(check(&mut m), counted(0, 0));
    assert_eq!(write(&mut m, 0, SELF_IPI, 0x41), Ok(1));
    assert_eq!(call(&mut m, 0, 1, DEREGISTER, 0), Ok(0));
    let mut p = page(&[]);
    assert_eq!(hand_back(&mut m, 0, &mut p, false, true), Ok(65_538));
    assert_eq!(p, page(&[(65, 0x42), (72, 0x02)]));
}

/// 14.71
#[test]
fn bits_7_0_are_cleared_where_marks_count() {
    let mut m = fresh(2, 1);
    m.records[0].allowed = VectorSet::all();
    let mut p = page(&[(3, 1), (64, 0x50), (65, 0x43), (72, 0x02)]);
    assert_eq!(notice(&mut m, 0, &mut p), counted(3, 0));
    assert_eq!(p, page(&[]));
    assert!(m.records[0].nmi && m.records[0].machine_check);
    assert_eq!(m.records[0].pending, set(&[0x41]));
}

/// A list on vCPU 0 with a second list of so many entries 9: the answer, and the second list after it.
fn listed(m: &mut Module, values: &[u32], length: usize) -> (Result<u32, Code>, Vec<u32>) {
    let mut codes = vec![9; length];
    let answer = allow(m, 0, values, &mut codes);
    (answer, codes)
}

/// 14.73
#[test]
fn a_worked_list_of_values() {
    let values = [0x141, 0x11E, 0x152, 0x041];
    let mut m = fresh(2, 1);
    let after = listed(&mut m, &values, 6);
    assert_eq!(after, (Ok(0), vec![0, BAD_VALUE, 0, 0, 9, 9]));
    assert_eq!(m, allowing(&[0x52]));
    let mut m = allowing(&[0x33]);
    let after = listed(&mut m, &values, 4);
    assert_eq!(after, (Ok(0), vec![0, BAD_VALUE, 0, 0]));
    assert_eq!(m, allowing(&[0x33, 0x52]));
}

/// 14.74, 14.75
#[test]
fn values_in_their_order_and_at_their_edges() {
    let mut m = fresh(2, 1);
    assert_eq!(listed(&mut m, &[0x041, 0x141], 2), (Ok(0), vec![0, 0]));
    assert_eq!(m, allowing(&[0x41]));
    let mut m = fresh(2, 1);
    assert_eq!(listed(&mut m, &[0x141, 0x041], 2), (Ok(0), vec![0, 0]));
    assert_eq!(m, fresh(2, 1));
    let values = [0x102, 0x112, 0x103, 0x341, 0x8000_0141, 0x11F, 0x1FF];
    let codes = vec![0, 0, BAD_VALUE, BAD_VALUE, BAD_VALUE, 0, 0];
    assert_eq!(listed(&mut m, &values, 7), (Ok(0), codes));
    let mut m = fresh(2, 1);
    assert_eq!(listed(&mut m, &[0x102, 0x341, 0x112], 3).0, Ok(0));
    assert_eq!(m, allowing(&[2, 18]));
}

/// 14.76, 14.77
#[test]
fn lists_and_what_is_in_flight() {
    assert_eq!(listed(&mut fresh(2, 1), &[], 0), (Ok(0), vec![]));
    assert_eq!(listed(&mut fresh(2, 1), &[], 2), (Ok(0), vec![9, 9]));
    let returned = |values: &[u32], length: usize| {
        let mut m = fresh(2, 1);
        m.records[0] = pending(&[0x41], false);
        assert_eq!(entry(&mut m, 0, true, false, false), Ok(presented(0x41)));
        let _ = listed(&mut m, values, length);
        non_delivery(&mut m, 0)
    };
    assert_eq!(returned(&[], 0), Ok(0));
    assert_eq!(returned(&[0x11E, 0x341], 2), Ok(0));
    assert_eq!(returned(&[0x11E, 0x152, 0x341], 3), Err(NOTHING_IN_FLIGHT));
    assert_eq!(returned(&[0x152], 0), Ok(0));
}

/// 14.78, 14.79, 14.81
#[test]
fn lists_that_are_refused() {
    let many = [0x141; 257];
    assert_eq!(listed(&mut fresh(2, 1), &many[..256], 256).0, Ok(0));
    for (count, length) in [(257, 257), (257, 300), (256, 255), (1, 0)] {
        let after = listed(&mut fresh(2, 1), &many[..count], length);
        assert_eq!(after, (Err(BAD_LIST), vec![9; length]));
    }
    let mut m = allowing(&[0x33]);
    assert_eq!(listed(&mut m, &many[..3], 2), (Err(BAD_LIST), vec![9, 9]));
    assert_eq!(m, allowing(&[0x33]));
    assert_eq!(allow(&mut m, 2, &many, &mut []), Err(UNKNOWN_VCPU));
    m.records[0].phase = Phase::Leaving;
    assert_eq!(listed(&mut m, &many, 300).0, Err(NOT_ACTIVE));
    assert_eq!(listed(&mut m, &many[..1], 0).0, Err(NOT_ACTIVE));
    m.records[0].phase = Phase::Left;
    assert_eq!(listed(&mut m, &many[..1], 1).0, Err(NOT_ACTIVE));
    assert_eq!(call(&mut fresh(2, 1), 0, 5, 0x141, 0), Err(UNKNOWN_CALL));
}

/// 14.80, the tallies apart
#[test]
fn a_worked_list_with_lists_of_values() {
    let mut m = fresh(1, 1);
    let disk = |m: &mut Module| notice(m, 0, &mut page(&[(3, 1), (64, 0x41)]));
    let shown = Ok(presented(0x41));
    let codes = vec![0, 0, BAD_VALUE, 0, 9];
    assert_eq!(
        listed(&mut m, &[0x041, 0x141, 0x11E, 0x102], 5),
        (Ok(0), codes)
    );
    let bytes = page(&[(3, 1), (64, 0x41)]);
    let mut entries: Vec<u32> = bytes.iter().map(|&b| b.into()).collect();
    let before = entries.clone();
    assert_eq!(allow(&mut m, 0, &[], &mut entries), Ok(0));
    assert_eq!(entries, before);
    assert_eq!(disk(&mut m), counted(1, 0));
    assert_eq!(entry(&mut m, 0, true, false, false), shown);
    assert_eq!(listed(&mut m, &[0x11E], 1), (Ok(0), vec![BAD_VALUE]));
    assert_eq!(non_delivery(&mut m, 0), Ok(0));
    assert_eq!(entry(&mut m, 0, true, false, false), shown);
    assert_eq!(
        listed(&mut m, &[0x11E, 0x041], 2),
        (Ok(0), vec![BAD_VALUE, 0])
    );
    assert_eq!(non_delivery(&mut m, 0), Err(NOTHING_IN_FLIGHT));
    assert_eq!(disk(&mut m), counted(0, 0));
    assert_eq!(listed(&mut m, &[0x141, 0x152], 1), (Err(BAD_LIST), vec![9]));
    assert_eq!(disk(&mut m), counted(0, 0));
    assert_eq!(
        notice(&mut m, 0, &mut page(&[(3, 1), (65, 0x01)])),
        counted(1, 0)
    );
    assert_eq!(allow(&mut m, 1, &[0x141], &mut []), Err(UNKNOWN_VCPU));
    assert_eq!(call(&mut m, 0, 1, DEREGISTER, 0), Ok(0));
    assert_eq!(listed(&mut m, &[0x141], 0).0, Err(NOT_ACTIVE));
    let mut p = page(&[]);
    assert_eq!(hand_back(&mut m, 0, &mut p, true, false), Ok(65_537));
    assert_eq!(p, page(&[(65, 0x01), (104, 0x02)]));
}
