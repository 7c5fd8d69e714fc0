//! Guest calls (sections 5 to 7).

use crate::{highest, place, priority_class, InFlight, Module, Outcome, Phase, Refusal, Set, Vcpu};

const ID: u32 = 0x802;
const TPR: u32 = 0x808;
const PPR: u32 = 0x80A;
const EOI: u32 = 0x80B;
const LDR: u32 = 0x80D;
const ISR: u32 = 0x810;
const TMR: u32 = 0x818;
const IRR: u32 = 0x820;
const ICR: u32 = 0x830;
const SELF_IPI: u32 = 0x83F;

/// Bits 12, 13, 16, 17 and 31:20 (7.8).
const ICR_RESERVED: u64 = 0xFFF3_3000;

const BAD: Outcome = Outcome::Refused(Refusal::BadParameter);

/// Section 5
#[inline(never)]
#[export_name = "plain::call"]
pub fn call(m: &mut Module, vcpu: u32, call: u32, ecx: u32, rdx: u64) -> Outcome {
    if !m.has(vcpu) {
        return Outcome::Refused(Refusal::UnknownVcpu);
    }
    let v = &mut m.vcpus[vcpu as usize];
    if v.phase != Phase::Active {
        return Outcome::Refused(Refusal::NotActive);
    }
    let outcome = match call {
        0 => Outcome::Done(0),
        1 => registration(&mut m.registrations, v, ecx),
        2 => read(v, vcpu, ecx),
        3 if ecx == ICR => return write_icr(m, vcpu, rdx),
        3 => write(v, vcpu, ecx, rdx),
        4 if permit(&mut v.allowed, ecx) => Outcome::Done(0),
        4 => BAD,
        _ => Outcome::Refused(Refusal::UnknownCall),
    };
    if let Outcome::Done(_) = outcome {
        v.flight = InFlight::Nothing;
    }
    outcome
}

/// 5.7 to 5.13
fn registration(registrations: &mut u8, v: &mut Vcpu, ecx: u32) -> Outcome {
    match (ecx, *registrations) {
        (0, _) => {}
        (1, count) => *registrations = count.saturating_sub(1),
        (2, 0) => return Outcome::Refused(Refusal::NotRegistered),
        (2, 255) => return Outcome::Refused(Refusal::RegistrationsFull),
        (2, count) => *registrations = count + 1,
        _ => return BAD,
    }
    if *registrations == 0 {
        v.phase = Phase::Leaving;
    }
    Outcome::Done(0)
}

/// A list of values for call 4, a code for each (5.26 to 5.32)
#[inline(never)]
#[export_name = "plain::allow"]
pub fn allow(m: &mut Module, vcpu: u32, values: &[u32], codes: &mut [u32]) -> Outcome {
    if !m.has(vcpu) {
        return Outcome::Refused(Refusal::UnknownVcpu);
    }
    let v = &mut m.vcpus[vcpu as usize];
    if v.phase != Phase::Active {
        return Outcome::Refused(Refusal::NotActive);
    }
    if values.len() > 256 || codes.len() < values.len() {
        return Outcome::Refused(Refusal::BadList);
    }
    let mut accepted = false;
    for (&ecx, code) in values.iter().zip(codes) {
        *code = if permit(&mut v.allowed, ecx) {
            accepted = true;
            0
        } else {
            Refusal::BadParameter as u32
        };
    }
    if accepted {
        v.flight = InFlight::Nothing;
    }
    Outcome::Done(0)
}

/// 5.15 to 5.18: is the value one that call 4 takes? If so, the set follows it. Few vectors are under 31, so that is asked first.
#[inline]
fn permit(allowed: &mut Set, ecx: u32) -> bool {
    let vector = ecx as u8;
    if ecx >= 512 || vector < 31 && vector != 2 && vector != 18 {
        return false;
    }
    let (w, bit) = place(vector);
    if ecx >= 256 {
        allowed[w] |= bit;
    } else {
        allowed[w] &= !bit;
    }
    true
}

/// 6.3 to 6.20
fn read(v: &Vcpu, id: u32, register: u32) -> Outcome {
    let k = (register & 7) as usize;
    Outcome::Done(match register {
        ID => u64::from(id),
        TPR => u64::from(v.tpr),
        PPR => u64::from(ppr(v)),
        LDR => u64::from(id >> 4 << 16 | 1 << (id & 15)),
        ISR..=0x817 => u64::from(v.isr[k]),
        TMR..=0x81F => u64::from(v.irr_level[k] | v.isr_level[k]),
        IRR..=0x827 => u64::from(v.irr[k]),
        ICR => v.icr,
        _ => return Outcome::Refused(Refusal::BadRegister),
    })
}

fn ppr(v: &Vcpu) -> u8 {
    let class = priority_class(v);
    if class == v.tpr >> 4 {
        v.tpr
    } else {
        class << 4
    }
}

/// 6.15, 6.21 to 6.28, 7.22
fn write(v: &mut Vcpu, id: u32, register: u32, value: u64) -> Outcome {
    match register {
        TPR if value <= 255 => {
            v.tpr = value as u8;
            Outcome::Done(0)
        }
        EOI if value == 0 => Outcome::Done(end(v)),
        SELF_IPI if (31..=255).contains(&value) => {
            let (w, bit) = place(value as u8);
            let new = v.irr[w] & bit == 0;
            v.irr[w] |= bit;
            v.summary |= 1 << w;
            Outcome::Done(u64::from(new) << id)
        }
        TPR | EOI | SELF_IPI | ID | PPR | LDR | ISR..=0x827 => BAD,
        _ => Outcome::Refused(Refusal::BadRegister),
    }
}

/// 6.25 to 6.28
fn end(v: &mut Vcpu) -> u64 {
    let Some(vector) = highest(&v.isr) else {
        return 0;
    };
    let (w, bit) = place(vector);
    v.isr[w] &= !bit;
    if v.isr_level[w] & bit == 0 {
        return 0;
    }
    v.isr_level[w] &= !bit;
    u64::from(vector)
}

/// Is the value of type NMI? None for a value that is not legal (7.3, 7.8 to 7.11).
fn type_of(value: u64) -> Option<bool> {
    if value & ICR_RESERVED != 0 {
        return None;
    }
    match value >> 8 & 7 {
        0 if value & 255 >= 31 => Some(false),
        4 if !matches!(value >> 18 & 3, 1 | 2) => Some(true),
        _ => None,
    }
}

/// The bits of the vCPUs that the value is for, be they there or not (7.6, 7.12 to 7.15).
fn targets(caller: u32, value: u64) -> u32 {
    let destination = (value >> 32) as u32;
    match value >> 18 & 3 {
        1 => 1 << caller,
        2 => u32::MAX,
        3 => !(1 << caller),
        _ if destination == u32::MAX => u32::MAX,
        _ if value & 0x800 == 0 => 1u32.checked_shl(destination).unwrap_or(0),
        _ => match destination >> 16 {
            0 => destination & 0xFFFF,
            1 => destination << 16,
            _ => 0,
        },
    }
}

/// 7.16 to 7.21
fn write_icr(m: &mut Module, caller: u32, value: u64) -> Outcome {
    let Some(nmi) = type_of(value) else {
        return BAD;
    };
    let v = &mut m.vcpus[caller as usize];
    v.icr = value;
    v.flight = InFlight::Nothing;
    let (w, bit) = place(value as u8);
    let mut left = targets(caller, value) & u32::MAX >> (32 - m.n);
    let mut named = 0;
    while left != 0 {
        let k = left.trailing_zeros();
        left &= left - 1;
        let target = &mut m.vcpus[k as usize];
        if target.phase != Phase::Active {
            continue;
        }
        let new = if nmi {
            let new = !target.nmi;
            target.nmi = true;
            new
        } else {
            let new = target.irr[w] & bit == 0;
            target.irr[w] |= bit;
            target.summary |= 1 << w;
            new
        };
        named |= u64::from(new) << k;
    }
    Outcome::Done(named)
}
