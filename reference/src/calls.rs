//! Guest calls (section 5), writes of registers (6.21 to 6.29) and IPIs (section 7).
//!
//! All checks of a call stand ahead of its changes (11.19).

use crate::codes::*;
use crate::icr;
use crate::registers::{self, Kind};
use crate::state::{Item, Module, Phase, Record};

/// 5.2, 5.3
pub fn call(m: &mut Module, vcpu: u32, call: u32, ecx: u32, rdx: u64) -> Result<u64, Code> {
    m.active(vcpu)?;
    check(m.count, call, ecx, rdx)?;
    m.record_mut(vcpu).flight = None;
    Ok(match call {
        1 => register(m, vcpu, ecx),
        2 => registers::read(m.record(vcpu), vcpu, ecx),
        3 => write(m, vcpu, ecx, rdx),
        4 => allow(m.record_mut(vcpu), ecx),
        _ => 0,
    })
}

/// The checks that follow the phase, in the order of 11.12.
fn check(count: u8, call: u32, ecx: u32, rdx: u64) -> Result<(), Code> {
    match call {
        0 => Ok(()),
        1 => check_registration(count, ecx),
        2 => check_read(ecx),
        3 => check_write(ecx, rdx),
        4 => {
            if allow_rule(ecx) {
                Ok(())
            } else {
                Err(BAD_VALUE)
            }
        }
        _ => Err(UNKNOWN_CALL),
    }
}

/// 5.7, 5.12
fn check_registration(count: u8, ecx: u32) -> Result<(), Code> {
    match (ecx, count) {
        (0 | 1, _) => Ok(()),
        (2, 0) => Err(COUNT_ZERO),
        (2, 255) => Err(COUNT_FULL),
        (2, _) => Ok(()),
        _ => Err(BAD_VALUE),
    }
}

/// 6.15
fn check_read(register: u32) -> Result<(), Code> {
    match registers::kind(register) {
        Kind::Read | Kind::Both => Ok(()),
        Kind::None | Kind::Write => Err(BAD_REGISTER),
    }
}

/// 6.15, 6.21
fn check_write(register: u32, value: u64) -> Result<(), Code> {
    match registers::kind(register) {
        Kind::None => Err(BAD_REGISTER),
        Kind::Read => Err(BAD_VALUE),
        Kind::Write | Kind::Both => {
            if value_rule(register, value) {
                Ok(())
            } else {
                Err(BAD_VALUE)
            }
        }
    }
}

/// 6.22 to 6.24
fn value_rule(register: u32, value: u64) -> bool {
    match register {
        registers::EOI => value == 0,
        registers::SELF_IPI => (31..=255).contains(&value),
        registers::TPR => value <= 255,
        registers::ICR => icr::legal(value),
        _ => unreachable!("only write and both kinds are written"),
    }
}

/// 5.17, 5.18
pub fn allow_rule(ecx: u32) -> bool {
    let vector = ecx % 256;
    ecx < 512 && (vector == 2 || vector == 18 || vector >= 31)
}

/// 5.16
fn allow(record: &mut Record, ecx: u32) -> u64 {
    let vector = (ecx % 256) as usize;
    if ecx / 256 % 2 == 1 {
        record.allowed.put(vector);
    } else {
        record.allowed.take(vector);
    }
    0
}

/// 5.8 to 5.11
fn register(m: &mut Module, vcpu: u32, ecx: u32) -> u64 {
    if ecx == 2 {
        m.count += 1;
        return 0;
    }
    if ecx == 1 && m.count != 0 {
        m.count -= 1;
    }
    if m.count == 0 {
        m.record_mut(vcpu).phase = Phase::Leaving;
    }
    0
}

/// 5.23
fn write(m: &mut Module, vcpu: u32, register: u32, value: u64) -> u64 {
    match register {
        registers::TPR => {
            m.record_mut(vcpu).tpr = value as u8;
            0
        }
        registers::EOI => eoi(m.record_mut(vcpu)),
        registers::ICR => {
            m.record_mut(vcpu).icr = value;
            send(m, icr::item(value), |id| icr::names(value, vcpu, id))
        }
        registers::SELF_IPI => send(m, Item::Vector(value as usize), |id| id == vcpu),
        _ => unreachable!("only write and both kinds are written"),
    }
}

/// 6.25 to 6.28
fn eoi(record: &mut Record) -> u64 {
    let Some(v) = record.service.highest() else {
        return 0;
    };
    let level = record.serving_level.has(v);
    record.service.take(v);
    record.serving_level.take(v);
    if level {
        v as u64
    } else {
        0
    }
}

/// 7.16, 7.17, 7.20: every active target gets the item, the answer names those that did not have it.
fn send(m: &mut Module, item: Item, target: impl Fn(u32) -> bool) -> u64 {
    let mut named = 0;
    for id in 0..m.n {
        let record = m.record_mut(id);
        if !target(id) || record.phase != Phase::Active {
            continue;
        }
        if !record.has_pending(item) {
            named += 2u64.pow(id);
        }
        record.add_pending(item);
    }
    named
}
