//! The gate in plain Rust, in place: what `bench/run` measures the proved functions against. Written from
//! `docs/SPECIFICATION.md` (4.17 is a clause there), with the state of `crates/model` and its answers, here enums that have
//! a refusal among their cases, and for speed: words and masks, and nothing is stored but what changes. The six events and
//! the question are not inlined and have names that callgrind finds.

mod calls;
mod pages;

pub use calls::{allow, call};
pub use pages::{hand_back, notice};

/// 256 bits, the lowest vectors first (2.7).
pub type Set = [u32; 8];

#[derive(Clone, Copy, PartialEq, Eq, Debug)]
pub enum Phase {
    Active,
    Leaving,
    Left,
}

#[derive(Clone, Copy, PartialEq, Eq, Debug)]
pub enum InFlight {
    Nothing,
    Nmi,
    MachineCheck,
    Vector(u8),
}

#[derive(Clone, Copy)]
#[repr(C)]
pub struct Vcpu {
    pub allowed: Set,
    pub irr: Set,
    pub isr: Set,
    pub irr_level: Set,
    pub isr_level: Set,
    pub nmi: bool,
    pub machine_check: bool,
    pub tpr: u8,
    pub icr: u64,
    pub phase: Phase,
    pub flight: InFlight,
    /// Bit k where word k of the IRR is not 0.
    pub summary: u8,
}

#[repr(C)]
pub struct Module {
    pub n: u32,
    pub vmpl: u32,
    pub registrations: u8,
    pub vcpus: [Vcpu; 32],
}

/// With the codes of section 11.
#[derive(Clone, Copy, PartialEq, Eq, Debug)]
#[repr(u32)]
pub enum Refusal {
    UnknownVcpu = 1,
    ShortPage = 2,
    StillActive = 3,
    NothingInFlight = 4,
    BadStart = 5,
    BadList = 6,
    HasLeft = 7,
    NotActive = 0x8000_0001,
    UnknownCall = 0x8000_0002,
    BadRegister = 0x8000_0003,
    BadParameter = 0x8000_0005,
    RegistrationsFull = 0x8000_0007,
    NotRegistered = 0x8000_1000,
}

#[derive(Clone, Copy, PartialEq, Eq, Debug)]
pub enum Outcome {
    Done(u64),
    Refused(Refusal),
}

/// Of a notice: the items that became pending, and the admitted items that were pending before it (4.29, 4.37).
#[derive(Clone, Copy, PartialEq, Eq, Debug)]
pub enum Admission {
    Items(u32, u32),
    Refused(Refusal),
}

#[derive(Clone, Copy, PartialEq, Eq, Debug)]
pub enum Presentation {
    Nothing,
    Nmi,
    MachineCheck,
    Vector(u8),
    Window(u8),
    Refused(Refusal),
}

/// The word of a vector, and its bit there.
fn place(vector: u8) -> (usize, u32) {
    (usize::from(vector >> 5), 1 << (vector & 31))
}

fn highest(set: &Set) -> Option<u8> {
    for (k, &word) in set.iter().enumerate().rev() {
        if word != 0 {
            return Some((32 * k as u32 + 31 - word.leading_zeros()) as u8);
        }
    }
    None
}

/// The same of the IRR, whose marked words alone are read. A mark need not be true: one over an empty word is passed by.
#[inline]
fn highest_marked(set: &Set, marks: u8) -> Option<u8> {
    let mut left = marks;
    while left != 0 {
        let k = left.ilog2();
        let word = set[k as usize];
        if word != 0 {
            return Some((32 * k + 31 - word.leading_zeros()) as u8);
        }
        left ^= 1 << k;
    }
    None
}

/// The class of the processor priority (6.17, 6.18).
fn priority_class(v: &Vcpu) -> u8 {
    (v.tpr >> 4).max(highest(&v.isr).unwrap_or(0) >> 4)
}

/// The vector that is presented where the guest takes interrupts (8.8, 8.9).
#[inline(always)]
fn presentable(v: &Vcpu) -> Option<u8> {
    let vector = highest_marked(&v.irr, v.summary)?;
    if vector >> 4 <= priority_class(v) {
        return None;
    }
    Some(vector)
}

impl Vcpu {
    const fn bare(phase: Phase) -> Vcpu {
        let none = [0; 8];
        Vcpu {
            allowed: none,
            irr: none,
            isr: none,
            irr_level: none,
            isr_level: none,
            nmi: false,
            machine_check: false,
            tpr: 0,
            icr: 0,
            phase,
            flight: InFlight::Nothing,
            summary: 0,
        }
    }
}

impl Module {
    /// Does the module have the vCPU (2.15)?
    fn has(&self, vcpu: u32) -> bool {
        vcpu < self.n && self.n <= 32 && (1..=3).contains(&self.vmpl)
    }
}

/// Section 3
pub fn start(n: u32, vmpl: u32) -> (Outcome, Module) {
    let stopped = Module {
        n: 0,
        vmpl: 1,
        registrations: 0,
        vcpus: [Vcpu::bare(Phase::Left); 32],
    };
    if !(1..=32).contains(&n) || !(1..=3).contains(&vmpl) {
        return (Outcome::Refused(Refusal::BadStart), stopped);
    }
    let mut m = Module {
        n,
        vmpl,
        registrations: 1,
        ..stopped
    };
    for v in &mut m.vcpus[..n as usize] {
        v.phase = Phase::Active;
    }
    (Outcome::Done(0), m)
}

/// Section 8
#[inline(never)]
#[export_name = "plain::entry"]
pub fn entry(m: &mut Module, vcpu: u32, iflag: bool, shadow: bool, blocked: bool) -> Presentation {
    if !m.has(vcpu) {
        return Presentation::Refused(Refusal::UnknownVcpu);
    }
    let v = &mut m.vcpus[vcpu as usize];
    if v.phase != Phase::Active {
        return Presentation::Refused(Refusal::NotActive);
    }
    // Most entries find nothing: they read no word of the IRR, and store nothing either.
    if v.flight != InFlight::Nothing {
        v.flight = InFlight::Nothing;
    }
    if v.summary == 0 && !v.nmi && !v.machine_check {
        return Presentation::Nothing;
    }
    present(v, iflag, shadow, blocked)
}

/// 8.6 to 8.14, 8.17; apart from `entry`, so that an idle one saves no registers.
#[inline(never)]
fn present(v: &mut Vcpu, iflag: bool, shadow: bool, blocked: bool) -> Presentation {
    if v.machine_check {
        v.machine_check = false;
        v.flight = InFlight::MachineCheck;
        return Presentation::MachineCheck;
    }
    if v.nmi && !shadow && !blocked {
        v.nmi = false;
        v.flight = InFlight::Nmi;
        return Presentation::Nmi;
    }
    let Some(vector) = presentable(v) else {
        return Presentation::Nothing;
    };
    if !iflag || shadow {
        return Presentation::Window(vector);
    }
    let (w, bit) = place(vector);
    v.irr[w] &= !bit;
    if v.irr[w] == 0 {
        v.summary &= !(1 << w);
    }
    v.isr[w] |= bit;
    if v.irr_level[w] & bit != 0 {
        v.irr_level[w] &= !bit;
        v.isr_level[w] |= bit;
    }
    v.flight = InFlight::Vector(vector);
    Presentation::Vector(vector)
}

/// Would an entry with IF and neither shadow nor NMI-blocked present anything (request A6)?
#[inline(never)]
#[export_name = "plain::would_present"]
pub fn would_present(m: &Module, vcpu: u32) -> bool {
    if !m.has(vcpu) {
        return false;
    }
    let v = &m.vcpus[vcpu as usize];
    v.phase == Phase::Active && (v.machine_check || v.nmi || presentable(v).is_some())
}

/// Section 9
#[inline(never)]
#[export_name = "plain::non_delivery"]
pub fn non_delivery(m: &mut Module, vcpu: u32) -> Outcome {
    if !m.has(vcpu) {
        return Outcome::Refused(Refusal::UnknownVcpu);
    }
    let v = &mut m.vcpus[vcpu as usize];
    if v.phase != Phase::Active {
        return Outcome::Refused(Refusal::NotActive);
    }
    match v.flight {
        InFlight::Nothing => return Outcome::Refused(Refusal::NothingInFlight),
        InFlight::MachineCheck => v.machine_check = true,
        InFlight::Nmi => v.nmi = true,
        InFlight::Vector(vector) => {
            let (w, bit) = place(vector);
            v.isr[w] &= !bit;
            v.irr[w] |= bit;
            v.summary |= 1 << w;
            if v.isr_level[w] & bit != 0 {
                v.isr_level[w] &= !bit;
                v.irr_level[w] |= bit;
            }
        }
    }
    v.flight = InFlight::Nothing;
    Outcome::Done(0)
}
