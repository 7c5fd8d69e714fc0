//! The loop of `bench/run` over one kind of event; `../loop.rattle` is the same over the proved functions. What both
//! print must be equal: the last answer, and digests of all answers and of the module, the page and the codes afterwards.

use plain::{Admission, InFlight, Module, Outcome, Phase, Presentation, Refusal, Vcpu};
use std::io::Read;

/// The numbers on standard input, so that the compiler knows none of them.
struct Given {
    count: u64,
    /// 1: the event is played; 0: only what is laid out before it, to be subtracted from a time.
    plays: u64,
    n: u32,
    vmpl: u32,
    /// 0 entry, 1 notice of one vector, 2 notice of many, 3 call, 4 non-delivery, 5 hand-back,
    /// 6 list of RDX values from ECX on, 7 the same values by a call each, 8 the question
    kind: u64,
    /// Word 2 of the IRR and of the ISR, and byte 0 of the descriptor.
    pending: u32,
    serving: u32,
    vector: u8,
    iflag: bool,
    call: u32,
    ecx: u32,
    rdx: u64,
}

fn given() -> Given {
    let mut text = String::new();
    std::io::stdin().read_to_string(&mut text).unwrap();
    let mut numbers = text
        .split_whitespace()
        .map(|word| word.parse::<u64>().unwrap());
    let mut next = || numbers.next().unwrap();
    Given {
        count: next(),
        plays: next(),
        n: next() as u32,
        vmpl: next() as u32,
        kind: next(),
        pending: next() as u32,
        serving: next() as u32,
        vector: next() as u8,
        iflag: next() == 1,
        call: next() as u32,
        ecx: next() as u32,
        rdx: next(),
    }
}

fn refused(r: Refusal) -> u64 {
    (1 << 32) + u64::from(r as u32)
}

fn outcome(o: Outcome) -> u64 {
    match o {
        Outcome::Done(value) => value,
        Outcome::Refused(r) => refused(r),
    }
}

fn admission(a: Admission) -> u64 {
    match a {
        Admission::Items(new, merged) => (u64::from(merged) << 16) + u64::from(new),
        Admission::Refused(r) => refused(r),
    }
}

fn presentation(p: Presentation) -> u64 {
    match p {
        Presentation::Nothing => 0,
        Presentation::Nmi => 1,
        Presentation::MachineCheck => 2,
        Presentation::Vector(v) => 0x100 + u64::from(v),
        Presentation::Window(v) => 0x200 + u64::from(v),
        Presentation::Refused(r) => refused(r),
    }
}

fn mix(digest: u64, x: u64) -> u64 {
    digest.rotate_left(7).wrapping_add(x)
}

fn mix_vcpu(mut digest: u64, v: &Vcpu) -> u64 {
    for set in [&v.allowed, &v.irr, &v.isr, &v.irr_level, &v.isr_level] {
        for &word in set {
            digest = mix(digest, u64::from(word));
        }
    }
    let phase = match v.phase {
        Phase::Active => 0,
        Phase::Leaving => 1,
        Phase::Left => 2,
    };
    let flight = match v.flight {
        InFlight::Nothing => 0,
        InFlight::Nmi => 1,
        InFlight::MachineCheck => 2,
        InFlight::Vector(x) => 0x100 + u64::from(x),
    };
    let marks = 2 * u64::from(v.machine_check) + u64::from(v.nmi);
    let summary = u64::from(v.summary);
    for x in [marks, u64::from(v.tpr), v.icr, phase, flight, summary] {
        digest = mix(digest, x);
    }
    digest
}

fn digest_of(m: &Module, page: &[u8; 256], codes: &[u32; 256]) -> u64 {
    let mut digest = mix(0, u64::from(m.registrations));
    for v in &m.vcpus {
        digest = mix_vcpu(digest, v);
    }
    for &byte in page {
        digest = mix(digest, u64::from(byte));
    }
    for &code in codes {
        digest = mix(digest, u64::from(code));
    }
    digest
}

/// What an event needs before it, so that each is like the one before.
fn lay_out(g: &Given, v: &mut Vcpu, page: &mut [u8; 256]) {
    v.irr[2] = g.pending;
    v.summary = v.summary & !4 | u8::from(g.pending != 0) << 2;
    v.isr[2] = g.serving;
    match g.kind {
        1 => {
            page[3] = 1;
            page[64] = g.vector;
        }
        2 => {
            page[3] = 1;
            page[65] = 0x40;
            page[67..96].fill(g.vector);
        }
        4 => v.flight = InFlight::Vector(g.vector),
        5 => v.phase = Phase::Leaving,
        6 | 7 => v.allowed = [0; 8],
        _ => {}
    }
}

fn call_each(g: &Given, m: &mut Module, k: u32, values: &[u32], codes: &mut [u32]) -> u64 {
    for (&ecx, code) in values.iter().zip(codes) {
        *code = outcome(plain::call(m, k, g.call, ecx, 0)) as u32;
    }
    0
}

fn play(
    g: &Given,
    m: &mut Module,
    k: u32,
    page: &mut [u8; 256],
    values: &[u32],
    codes: &mut [u32],
) -> u64 {
    match g.kind {
        0 => presentation(plain::entry(m, k, g.iflag, false, false)),
        1 | 2 => admission(plain::notice(m, k, page)),
        3 => outcome(plain::call(m, k, g.call, g.ecx, g.rdx)),
        4 => outcome(plain::non_delivery(m, k)),
        6 => outcome(plain::allow(m, k, values, codes)),
        7 => call_each(g, m, k, values, codes),
        8 => u64::from(plain::would_present(m, k)),
        _ => outcome(plain::hand_back(m, k, page, g.iflag, false)),
    }
}

fn main() {
    let g = given();
    let (_, mut m) = plain::start(g.n, g.vmpl);
    for v in &mut m.vcpus {
        v.allowed = [u32::MAX; 8];
    }
    let mut page = [0; 256];
    let values: Vec<u32> = (0..g.rdx as u32 % 257)
        .map(|i| g.ecx.wrapping_add(i))
        .collect();
    let mut codes = [u32::MAX; 256];
    let (mut last, mut answers) = (0, 0);
    for i in 0..g.count {
        let k = (i % 32) as u32;
        lay_out(&g, &mut m.vcpus[k as usize], &mut page);
        if g.plays == 1 {
            last = play(&g, &mut m, k, &mut page, &values, &mut codes);
            answers = mix(answers, last);
        }
    }
    println!("{last}\n{answers}\n{}", digest_of(&m, &page, &codes));
}
