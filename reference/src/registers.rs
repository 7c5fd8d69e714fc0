//! Registers: their kinds and their values (section 6).

use crate::state::Record;

#[derive(Clone, Copy, PartialEq, Eq, Debug)]
pub enum Kind {
    None,
    Read,
    Write,
    Both,
}

pub const ID: u32 = 0x802;
pub const TPR: u32 = 0x808;
pub const PPR: u32 = 0x80A;
pub const EOI: u32 = 0x80B;
pub const LDR: u32 = 0x80D;
pub const ICR: u32 = 0x830;
pub const SELF_IPI: u32 = 0x83F;

/// 6.2 to 6.13
pub fn kind(register: u32) -> Kind {
    match register {
        ID | PPR | LDR | 0x810..=0x827 => Kind::Read,
        EOI | SELF_IPI => Kind::Write,
        TPR | ICR => Kind::Both,
        _ => Kind::None,
    }
}

/// 1.13
pub fn class(vector: usize) -> usize {
    vector / 16
}

/// 6.17 to 6.19
pub fn ppr(record: &Record) -> usize {
    let s = record.service.highest().unwrap_or(0);
    let tpr = record.tpr as usize;
    if class(tpr) >= class(s) {
        tpr
    } else {
        16 * class(s)
    }
}

/// 6.16
pub fn ldr(id: u32) -> u64 {
    u64::from(id / 16) * 65_536 + 2u64.pow(id % 16)
}

/// What call 2 gives for a register that it may read (6.3 to 6.11, 6.20).
pub fn read(record: &Record, id: u32, register: u32) -> u64 {
    let k = (register % 8) as usize;
    match register {
        ID => u64::from(id),
        TPR => u64::from(record.tpr),
        PPR => ppr(record) as u64,
        LDR => ldr(id),
        0x810..=0x817 => record.service.register(k),
        0x818..=0x81F => record
            .pending_level
            .joined(&record.serving_level)
            .register(k),
        0x820..=0x827 => record.pending.register(k),
        ICR => record.icr,
        _ => unreachable!("only read and both kinds are read"),
    }
}
