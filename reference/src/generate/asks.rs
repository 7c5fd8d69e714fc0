//! Questions among the events (8.21 to 8.23). They come on top of the events and have random numbers of their own, so that a
//! seed's events stay what they are without them.

use crate::events::Event;
use crate::ipi::Ipi;
use crate::random::Random;
use crate::registers::{EOI, ICR, SELF_IPI, TPR};
use crate::state::{Module, Phase, Record};

/// The vCPUs that are asked about behind this event, which the module has had.
pub fn behind(r: &mut Random, m: &Module, event: &Event) -> Vec<u32> {
    let mut asked = Vec::new();
    if r.chance(percent(m, event)) {
        asked.push(concerned(r, m, event));
    }
    if r.chance(5) {
        asked.extend(in_a_corner(r, m));
    }
    if r.below(40) == 0 {
        asked.push(unknown(r, m.n));
    }
    // Asked again at once: the first question must have changed nothing.
    if r.chance(8) {
        asked.extend(asked.first().copied());
    }
    asked
}

/// How often: most where the answer may have changed, and on a vCPU that is about to be handed back.
fn percent(m: &Module, event: &Event) -> usize {
    let own = event.vcpu().and_then(|vcpu| m.records.get(vcpu as usize));
    if own.is_some_and(|record| record.phase == Phase::Leaving) {
        return 60;
    }
    match event {
        Event::Notice { .. } | Event::Entry { .. } => 15,
        Event::NonDelivery { .. } => 30,
        Event::HandBack { .. } | Event::Call { call: 1, .. } => 40,
        Event::Call {
            call: 3,
            ecx: TPR | EOI | ICR | SELF_IPI,
            ..
        } => 20,
        _ => 4,
    }
}

/// The event's own vCPU or, of an IPI, often one that it is for.
fn concerned(r: &mut Random, m: &Module, event: &Event) -> u32 {
    if let Some(ipi) = Ipi::of(event) {
        let targets: Vec<u32> = (0..m.n).filter(|&id| ipi.targets(id)).collect();
        if !targets.is_empty() && r.chance(70) {
            return r.pick(&targets);
        }
    }
    event.vcpu().unwrap_or(0)
}

/// What the answer can be got wrong by.
type Corner = fn(&Record) -> bool;

fn leaving_with_much(record: &Record) -> bool {
    record.phase == Phase::Leaving && !record.pending.is_empty()
}

fn leaving_with_nothing(record: &Record) -> bool {
    let marked = record.nmi || record.machine_check;
    record.phase == Phase::Leaving && record.pending.is_empty() && !marked
}

fn without_vectors(record: &Record) -> bool {
    record.pending.is_empty() && (record.nmi || record.machine_check)
}

fn with_vectors_alone(record: &Record) -> bool {
    !record.pending.is_empty() && !record.nmi && !record.machine_check
}

/// A vCPU in one of the corners where there is any.
fn in_a_corner(r: &mut Random, m: &Module) -> Option<u32> {
    let corners: [Corner; 6] = [
        leaving_with_much,
        leaving_with_nothing,
        without_vectors,
        with_vectors_alone,
        |record| record.phase == Phase::Left,
        |record| record.flight.is_some(),
    ];
    let groups =
        corners.map(|corner| -> Vec<u32> { (0..m.n).filter(|&id| corner(m.record(id))).collect() });
    let met: Vec<&Vec<u32>> = groups.iter().filter(|group| !group.is_empty()).collect();
    if met.is_empty() {
        None
    } else {
        let group = r.pick(&met);
        Some(r.pick(group))
    }
}

/// Numbers that no vCPU has; a narrower width would cut some of them to one that has something to present.
fn unknown(r: &mut Random, n: u32) -> u32 {
    let known = r.below(n.max(1) as usize) as u32;
    r.pick(&[
        n,
        n + 1,
        32,
        33,
        0x100 + known,
        0x1_0000 + known,
        0x8000_0000 + known,
        u32::MAX,
    ])
}
