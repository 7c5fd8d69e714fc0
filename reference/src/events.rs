//! The events (sections 4 and 8 to 10); guest calls are in `calls`.

use crate::calls;
use crate::codes::{Code, BAD_LIST, HAS_LEFT, NOTHING_IN_FLIGHT, STILL_ACTIVE};
use crate::page;
use crate::registers::{class, ppr};
use crate::set::VectorSet;
use crate::state::{start, Item, Module, Phase, Record};

#[derive(Clone, PartialEq, Eq, Debug)]
pub enum Event {
    Start {
        n: u32,
        vmpl: u32,
    },
    Notice {
        vcpu: u32,
        page: Vec<u8>,
    },
    Call {
        vcpu: u32,
        call: u32,
        ecx: u32,
        rdx: u64,
    },
    Entry {
        vcpu: u32,
        if_set: bool,
        shadow: bool,
        blocked: bool,
    },
    NonDelivery {
        vcpu: u32,
    },
    HandBack {
        vcpu: u32,
        if_set: bool,
        shadow: bool,
        page: Vec<u8>,
    },
    /// A list of ECX values and the second list, which receives their codes (5.26).
    Allow {
        vcpu: u32,
        values: Vec<u32>,
        codes: Vec<u32>,
    },
}

impl Event {
    /// The vCPU that it names; a start names none.
    pub fn vcpu(&self) -> Option<u32> {
        match self {
            Event::Start { .. } => None,
            Event::Notice { vcpu, .. }
            | Event::Call { vcpu, .. }
            | Event::Entry { vcpu, .. }
            | Event::NonDelivery { vcpu }
            | Event::HandBack { vcpu, .. }
            | Event::Allow { vcpu, .. } => Some(*vcpu),
        }
    }
}

/// 8.4
#[derive(Clone, Copy, PartialEq, Eq, Debug)]
pub enum Shown {
    Nothing,
    Presented(Item),
    Window(usize),
}

/// How many admitted items became pending (4.29), and how many were pending before (4.37).
#[derive(Clone, Copy, PartialEq, Eq, Debug)]
pub struct Admission {
    pub new: u32,
    pub merged: u32,
}

#[derive(Clone, Copy, PartialEq, Eq, Debug)]
pub enum Answer {
    Start(Result<(), Code>),
    Notice(Result<Admission, Code>),
    Call(Result<u64, Code>),
    Entry(Result<Shown, Code>),
    NonDelivery(Result<u32, Code>),
    HandBack(Result<u32, Code>),
    Allow(Result<u32, Code>),
}

impl Answer {
    /// The code, if the event was refused.
    pub fn refusal(&self) -> Option<Code> {
        match *self {
            Answer::Start(answer) => answer.err(),
            Answer::Notice(answer) => answer.err(),
            Answer::Call(answer) => answer.err(),
            Answer::Entry(answer) => answer.err(),
            Answer::NonDelivery(answer) | Answer::HandBack(answer) | Answer::Allow(answer) => {
                answer.err()
            }
        }
    }
}

/// One step (1.1). The page or second list is a part of the event and is changed there.
pub fn step(m: &mut Module, event: &mut Event) -> Answer {
    match event {
        Event::Start { n, vmpl } => {
            let (answer, fresh) = start(*n, *vmpl);
            *m = fresh;
            Answer::Start(answer)
        }
        Event::Notice { vcpu, page } => Answer::Notice(notice(m, *vcpu, page)),
        Event::Call {
            vcpu,
            call,
            ecx,
            rdx,
        } => Answer::Call(calls::call(m, *vcpu, *call, *ecx, *rdx)),
        Event::Entry {
            vcpu,
            if_set,
            shadow,
            blocked,
        } => Answer::Entry(entry(m, *vcpu, *if_set, *shadow, *blocked)),
        Event::NonDelivery { vcpu } => Answer::NonDelivery(non_delivery(m, *vcpu)),
        Event::HandBack {
            vcpu,
            if_set,
            shadow,
            page,
        } => Answer::HandBack(hand_back(m, *vcpu, page, *if_set, *shadow)),
        Event::Allow {
            vcpu,
            values,
            codes,
        } => Answer::Allow(allow(m, *vcpu, values, codes)),
    }
}

/// 4.2, 4.6, 4.25 to 4.31
pub fn notice(m: &mut Module, vcpu: u32, page: &mut [u8]) -> Result<Admission, Code> {
    m.active(vcpu)?;
    page::long_enough(page)?;
    if !page::announces(page, m.vmpl) {
        return Ok(Admission { new: 0, merged: 0 });
    }
    let part = page::admitted(page, m.vmpl, &m.record(vcpu).allowed);
    page::clear_notice(page, m.vmpl);

    let record = m.record_mut(vcpu);
    let admission = admit(record, &part.items());
    if let Some(v) = part.level {
        record.pending_level.put(v);
    }
    Ok(admission)
}

/// 4.25, 4.28, 4.29, 4.37, 4.42. No item stands twice among these, so none finds itself pending.
fn admit(record: &mut Record, items: &[Item]) -> Admission {
    let mut admission = Admission { new: 0, merged: 0 };
    for &item in items {
        if record.has_pending(item) {
            admission.merged += 1;
        } else {
            admission.new += 1;
        }
        record.add_pending(item);
    }
    admission
}

/// 8.2, 8.3, 8.6 to 8.14, 8.17, 8.18
pub fn entry(
    m: &mut Module,
    vcpu: u32,
    if_set: bool,
    shadow: bool,
    blocked: bool,
) -> Result<Shown, Code> {
    m.active(vcpu)?;
    let record = m.record_mut(vcpu);
    let shown = shows(record, if_set, shadow, blocked);
    record.flight = None;
    if let Shown::Presented(item) = shown {
        present(record, item);
    }
    Ok(shown)
}

/// What an entry of an active vCPU shows. This is apart from what it changes, so that the question is
/// answered by the very same rule.
fn shows(record: &Record, if_set: bool, shadow: bool, blocked: bool) -> Shown {
    if record.machine_check {
        return Shown::Presented(Item::MachineCheck);
    }
    if record.nmi && !shadow && !blocked {
        return Shown::Presented(Item::Nmi);
    }
    match record.pending.highest() {
        Some(v) if class(v) > class(ppr(record)) && if_set && !shadow => {
            Shown::Presented(Item::Vector(v))
        }
        Some(v) if class(v) > class(ppr(record)) => Shown::Window(v),
        _ => Shown::Nothing,
    }
}

/// The question of request A6 (02): would an entry with IF and neither shadow nor NMI-blocked present
/// anything? It is no event, and no is also the answer for a vCPU that is unknown or not active.
pub fn ask(m: &Module, vcpu: u32) -> bool {
    m.active(vcpu).is_ok()
        && matches!(
            shows(m.record(vcpu), true, false, false),
            Shown::Presented(_)
        )
}

/// 8.11, 8.12, 8.14, 8.17
fn present(record: &mut Record, item: Item) {
    match item {
        Item::MachineCheck => record.machine_check = false,
        Item::Nmi => record.nmi = false,
        Item::Vector(v) => serve(record, v),
    }
    record.flight = Some(item);
}

/// 8.11, 8.12
fn serve(record: &mut Record, v: usize) {
    record.pending.take(v);
    record.service.put(v);
    if record.pending_level.has(v) {
        record.pending_level.take(v);
        record.serving_level.put(v);
    }
}

/// 9.2, 9.3, 9.7, 9.9
pub fn non_delivery(m: &mut Module, vcpu: u32) -> Result<u32, Code> {
    m.active(vcpu)?;
    let record = m.record_mut(vcpu);
    match record.flight {
        None => return Err(NOTHING_IN_FLIGHT),
        Some(Item::MachineCheck) => record.machine_check = true,
        Some(Item::Nmi) => record.nmi = true,
        Some(Item::Vector(v)) => give_back(record, v),
    }
    record.flight = None;
    Ok(0)
}

/// 9.4 to 9.6
fn give_back(record: &mut Record, v: usize) {
    record.service.take(v);
    record.pending.put(v);
    if record.serving_level.has(v) {
        record.serving_level.take(v);
        record.pending_level.put(v);
    }
}

/// 10.2, 10.12 to 10.14; the order of its checks is 11.17.
pub fn hand_back(
    m: &mut Module,
    vcpu: u32,
    page: &mut [u8],
    if_set: bool,
    shadow: bool,
) -> Result<u32, Code> {
    m.known(vcpu)?;
    match m.record(vcpu).phase {
        Phase::Active => return Err(STILL_ACTIVE),
        Phase::Left => return Err(HAS_LEFT),
        Phase::Leaving => {}
    }
    page::long_enough(page)?;

    let vmpl = m.vmpl;
    let record = m.record_mut(vcpu);
    page::write_handback(page, vmpl, record);
    let result =
        vmpl * 65_536 + u32::from(record.tpr) * 256 + 2 * u32::from(shadow) + u32::from(if_set);

    record.allowed = VectorSet::empty();
    record.pending = VectorSet::empty();
    record.service = VectorSet::empty();
    record.pending_level = VectorSet::empty();
    record.serving_level = VectorSet::empty();
    record.nmi = false;
    record.machine_check = false;
    record.phase = Phase::Left;
    Ok(result)
}

/// 5.26 to 5.32, 11.22: each value is a call 4 of its own, and the next one finds what it left.
pub fn allow(m: &mut Module, vcpu: u32, values: &[u32], codes: &mut [u32]) -> Result<u32, Code> {
    m.active(vcpu)?;
    check_lists(values.len(), codes.len())?;
    for (&ecx, code) in values.iter().zip(codes) {
        *code = calls::call(m, vcpu, 4, ecx, 0).err().unwrap_or(0);
    }
    Ok(0)
}

/// 11.21
fn check_lists(values: usize, codes: usize) -> Result<(), Code> {
    if values <= 256 && codes >= values {
        Ok(())
    } else {
        Err(BAD_LIST)
    }
}
