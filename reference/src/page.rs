//! The doorbell page under a notice (4.3 to 4.35) and under a hand-back (10.3 to 10.11). But for
//! `long_enough` the functions want 256 bytes and a VMPL from 1 to 3.

use crate::codes::{Code, SHORT_PAGE};
use crate::set::VectorSet;
use crate::state::{Item, Record};

const INJECTION_INFO: usize = 2;
const NMI: usize = 8;
const MACHINE_CHECK: usize = 9;
const LEVEL: usize = 10;
const MANY: usize = 14;
const LOWEST: usize = 31;

/// 11.2
pub fn long_enough(page: &[u8]) -> Result<(), Code> {
    if page.len() >= 256 {
        Ok(())
    } else {
        Err(SHORT_PAGE)
    }
}

/// Bit `number`, counted from byte `start` on (4.8).
pub fn bit(page: &[u8], start: usize, number: usize) -> bool {
    page[start + number / 8] / 2u8.pow((number % 8) as u32) % 2 == 1
}

pub fn set_bit(page: &mut [u8], start: usize, number: usize) {
    if !bit(page, start, number) {
        page[start + number / 8] += 2u8.pow((number % 8) as u32);
    }
}

pub fn clear_bit(page: &mut [u8], start: usize, number: usize) {
    if bit(page, start, number) {
        page[start + number / 8] -= 2u8.pow((number % 8) as u32);
    }
}

/// The first byte of this VMPL's descriptor (4.7).
pub fn descriptor(vmpl: u32) -> usize {
    64 * vmpl as usize
}

/// 4.4, 4.5
pub fn announces(page: &[u8], vmpl: u32) -> bool {
    bit(page, INJECTION_INFO, 7 + vmpl as usize)
}

/// 4.14
#[derive(Clone, PartialEq, Eq, Debug)]
pub struct Admitted {
    pub nmi: bool,
    pub machine_check: bool,
    pub level: Option<usize>,
    pub edge: VectorSet,
}

impl Admitted {
    /// 4.20
    pub fn nothing() -> Admitted {
        Admitted {
            nmi: false,
            machine_check: false,
            level: None,
            edge: VectorSet::empty(),
        }
    }

    /// Each item once (4.24).
    pub fn items(&self) -> Vec<Item> {
        let mut items: Vec<Item> = self.edge.members().into_iter().map(Item::Vector).collect();
        items.extend(self.level.map(Item::Vector));
        if self.nmi {
            items.push(Item::Nmi);
        }
        if self.machine_check {
            items.push(Item::MachineCheck);
        }
        items
    }
}

/// 4.15 to 4.24, 4.40. For a machine check bit 9 alone is looked at, and no mark of 18 (4.41).
pub fn admitted(page: &[u8], vmpl: u32, allowed: &VectorSet) -> Admitted {
    if !announces(page, vmpl) {
        return Admitted::nothing();
    }
    let start = descriptor(vmpl);
    let vector = page[start] as usize;
    let (level, many) = (bit(page, start, LEVEL), bit(page, start, MANY));
    let vector_allowed = vector >= LOWEST && allowed.has(vector);

    let mut part = Admitted::nothing();
    part.nmi = bit(page, start, NMI) && allowed.has(2);
    part.machine_check = bit(page, start, MACHINE_CHECK) && allowed.has(18);
    if level && vector_allowed {
        part.level = Some(vector);
    }
    if many {
        part.edge = marked_and_allowed(page, vmpl, allowed);
        if level {
            part.edge.take(vector);
        }
    }
    if !level && !many && vector_allowed {
        part.edge.put(vector);
    }
    part
}

/// 4.18
fn marked_and_allowed(page: &[u8], vmpl: u32, allowed: &VectorSet) -> VectorSet {
    let mut set = VectorSet::empty();
    for v in LOWEST..=255 {
        if bit(page, descriptor(vmpl), v) && allowed.has(v) {
            set.put(v);
        }
    }
    set
}

/// 4.31 to 4.35, 4.43
pub fn clear_notice(page: &mut [u8], vmpl: u32) {
    let start = descriptor(vmpl);
    let mut cleared: Vec<usize> = (0..=10).collect();
    cleared.push(14);
    if bit(page, start, MANY) {
        cleared.extend(LOWEST..=255);
    }
    clear_bit(page, INJECTION_INFO, 7 + vmpl as usize);
    for number in cleared {
        clear_bit(page, start, number);
    }
}

/// 10.3 to 10.11, 10.17
pub fn write_handback(page: &mut [u8], vmpl: u32, record: &Record) {
    let start = descriptor(vmpl);
    page[start..start + 64].fill(0);
    if let Some(vector) = record.pending_level.highest() {
        page[start] = vector as u8;
        set_bit(page, start, LEVEL);
    }
    if record.nmi {
        set_bit(page, start, NMI);
    }
    if record.machine_check {
        set_bit(page, start, MACHINE_CHECK);
    }
    let edge = record.pending.without(&record.pending_level);
    if write_vectors(page, start, &edge) {
        set_bit(page, start, MANY);
    }
    write_vectors(
        page,
        start + 32,
        &record.service.without(&record.serving_level),
    );
}

/// 10.7, 10.10: marks a set without its vectors under 31, and tells whether a mark was made.
fn write_vectors(page: &mut [u8], start: usize, set: &VectorSet) -> bool {
    let mut any = false;
    for v in LOWEST..=255 {
        if set.has(v) {
            set_bit(page, start, v);
            any = true;
        }
    }
    any
}
