//! The events with a page: notices (section 4) and hand-backs (section 10).

use crate::{highest, place, Admission, Module, Outcome, Phase, Refusal, Set, Vcpu};

/// Bits 8, 9, 10 and 14 of a descriptor, in its byte 1 (4.10 to 4.13).
const NMI: u8 = 0x01;
const MACHINE_CHECK: u8 = 0x02;
const LEVEL: u8 = 0x04;
const MANY: u8 = 0x40;

/// What a notice leaves of byte 1: it clears bits 10:8 and 14 (4.31).
const KEPT: u8 = !(0x07 | MANY);

/// Of word 0, the mark of vector 31.
const MARK_31: u32 = 1 << 31;

/// The 64 bytes of the page for the VMPL (4.7, 10.3).
fn area(page: &mut [u8], vmpl: u32) -> &mut [u8; 64] {
    let at = 64 * vmpl as usize;
    (&mut page[at..at + 64]).try_into().unwrap()
}

fn word(bytes: &[u8; 64], k: usize) -> u32 {
    u32::from_le_bytes(bytes[4 * k..4 * k + 4].try_into().unwrap())
}

/// Section 4
#[inline(never)]
#[export_name = "plain::notice"]
pub fn notice(m: &mut Module, vcpu: u32, page: &mut [u8]) -> Admission {
    if !m.has(vcpu) {
        return Admission::Refused(Refusal::UnknownVcpu);
    }
    let v = &mut m.vcpus[vcpu as usize];
    if v.phase != Phase::Active {
        return Admission::Refused(Refusal::NotActive);
    }
    if page.len() < 256 {
        return Admission::Refused(Refusal::ShortPage);
    }
    let announced = 1 << (m.vmpl - 1);
    if page[3] & announced == 0 {
        return Admission::Items(0, 0);
    }
    page[3] &= !announced;
    let d = area(page, m.vmpl);
    let (single, flags) = (d[0], d[1]);
    d[0] = 0;
    d[1] = flags & KEPT;
    let mut counts = Counts::default();
    if flags & (NMI | MACHINE_CHECK) != 0 {
        admit_marked(v, flags, &mut counts);
    }
    let (w, bit) = place(single);
    let named = single >= 31 && v.allowed[w] & bit != 0;
    let level = named && flags & LEVEL != 0;
    if named && (level || flags & MANY == 0) {
        counts.add(v.irr[w] & bit != 0);
        v.irr[w] |= bit;
        v.summary |= 1 << w;
    }
    if level {
        v.irr_level[w] |= bit;
    }
    if flags & MANY != 0 {
        let level = if level { Some((w, bit)) } else { None };
        admit_many(v, d, level, &mut counts);
    }
    Admission::Items(counts.new, counts.merged)
}

/// 4.29, 4.37
#[derive(Default)]
struct Counts {
    new: u32,
    merged: u32,
}

impl Counts {
    #[inline]
    fn add(&mut self, was_pending: bool) {
        if was_pending {
            self.merged += 1;
        } else {
            self.new += 1;
        }
    }
}

/// 4.16, 4.40. Few notices have either, so one test comes before both.
#[inline]
fn admit_marked(v: &mut Vcpu, flags: u8, counts: &mut Counts) {
    if flags & NMI != 0 && v.allowed[0] & 1 << 2 != 0 {
        counts.add(v.nmi);
        v.nmi = true;
    }
    if flags & MACHINE_CHECK != 0 && v.allowed[0] & 1 << 18 != 0 {
        counts.add(v.machine_check);
        v.machine_check = true;
    }
}

/// 4.18, 4.32; the level-sensitive vector is not counted again (4.24).
#[inline]
fn admit_many(v: &mut Vcpu, d: &mut [u8; 64], level: Option<(usize, u32)>, counts: &mut Counts) {
    let mut edge: Set = std::array::from_fn(|k| word(d, k) & v.allowed[k]);
    edge[0] &= MARK_31;
    if let Some((w, bit)) = level {
        edge[w] &= !bit;
    }
    d[3] &= 0x7F;
    d[4..32].fill(0);
    v.summary |= marks(&edge);
    for (pending, more) in v.irr.iter_mut().zip(edge) {
        counts.merged += (*pending & more).count_ones();
        counts.new += (!*pending & more).count_ones();
        *pending |= more;
    }
}

/// Bit k where word k is not 0; in words of 32 bits, which the compiler takes four at a time.
#[inline]
fn marks(set: &Set) -> u8 {
    let mut marks = 0;
    for (k, &word) in set.iter().enumerate() {
        marks |= if word != 0 { 1u32 << k } else { 0 };
    }
    marks as u8
}

/// Section 10
#[inline(never)]
#[export_name = "plain::hand_back"]
pub fn hand_back(m: &mut Module, vcpu: u32, page: &mut [u8], iflag: bool, shadow: bool) -> Outcome {
    if !m.has(vcpu) {
        return Outcome::Refused(Refusal::UnknownVcpu);
    }
    let v = &mut m.vcpus[vcpu as usize];
    if v.phase != Phase::Leaving {
        return Outcome::Refused(hand_back_refusal(v.phase));
    }
    if page.len() < 256 {
        return Outcome::Refused(Refusal::ShortPage);
    }
    write(v, area(page, m.vmpl));
    v.allowed = [0; 8];
    v.irr = [0; 8];
    v.isr = [0; 8];
    v.irr_level = [0; 8];
    v.isr_level = [0; 8];
    v.nmi = false;
    v.machine_check = false;
    v.summary = 0;
    v.phase = Phase::Left;
    Outcome::Done(
        u64::from(m.vmpl) << 16 | u64::from(v.tpr) << 8 | u64::from(shadow) << 1 | u64::from(iflag),
    )
}

/// The refusal of a hand-back whose vCPU is not leaving (11.3, 11.23).
#[inline]
fn hand_back_refusal(phase: Phase) -> Refusal {
    if phase == Phase::Active {
        Refusal::StillActive
    } else {
        Refusal::HasLeft
    }
}

/// 10.4 to 10.11, 10.17
#[inline]
fn write(v: &Vcpu, d: &mut [u8; 64]) {
    let mut marked = 0;
    for k in 0..8 {
        let from_31 = if k == 0 { MARK_31 } else { u32::MAX };
        let edge = v.irr[k] & !v.irr_level[k] & from_31;
        let serving = v.isr[k] & !v.isr_level[k] & from_31;
        d[4 * k..4 * k + 4].copy_from_slice(&edge.to_le_bytes());
        d[32 + 4 * k..36 + 4 * k].copy_from_slice(&serving.to_le_bytes());
        marked |= edge;
    }
    if v.nmi {
        d[1] |= NMI;
    }
    if v.machine_check {
        d[1] |= MACHINE_CHECK;
    }
    if let Some(vector) = highest(&v.irr_level) {
        d[0] = vector;
        d[1] |= LEVEL;
    }
    if marked != 0 {
        d[1] |= MANY;
    }
}
