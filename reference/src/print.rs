//! Printing answers, modules and events in the trace format.

use std::fmt::{Display, LowerHex, Write};

use crate::codes::Code;
use crate::events::{Admission, Answer, Event, Shown};
use crate::set::VectorSet;
use crate::state::{Item, Module, Phase, Record};

/// The line for an event that was played; its page or second list is the one after it.
pub fn answer(event: &Event, answer: &Answer) -> String {
    match (answer, event) {
        (Answer::Start(Ok(())), _) => "start ok".to_string(),
        (Answer::Start(Err(code)), _) => format!("start refused {code:#x}"),
        (Answer::Notice(a), Event::Notice { page, .. }) => {
            format!("notice {} page{}", admission(a), bytes(page))
        }
        (Answer::Call(a), _) => format!("call {}", outcome(a)),
        (Answer::Entry(a), _) => format!("entry {}", shown(a)),
        (Answer::NonDelivery(a), _) => format!("nondelivery {}", outcome(a)),
        (Answer::HandBack(a), Event::HandBack { page, .. }) => {
            format!("handback {} page{}", outcome(a), bytes(page))
        }
        (Answer::Allow(a), Event::Allow { codes, .. }) => {
            format!("allow {} codes{}", outcome(a), numbers(codes))
        }
        _ => unreachable!("an answer stands with its own event"),
    }
}

/// The line for a question (8.21 to 8.23).
pub fn asked(yes: bool) -> &'static str {
    if yes {
        "ask yes"
    } else {
        "ask no"
    }
}

fn outcome<T: LowerHex>(answer: &Result<T, Code>) -> String {
    match answer {
        Ok(value) => format!("ok {value:#x}"),
        Err(code) => format!("refused {code:#x}"),
    }
}

/// The items that became pending, then those that were pending before.
fn admission(answer: &Result<Admission, Code>) -> String {
    match answer {
        Ok(Admission { new, merged }) => format!("ok {new:#x} {merged:#x}"),
        Err(code) => format!("refused {code:#x}"),
    }
}

fn shown(answer: &Result<Shown, Code>) -> String {
    match answer {
        Ok(Shown::Nothing) => "nothing".to_string(),
        Ok(Shown::Presented(Item::MachineCheck)) => "mc".to_string(),
        Ok(Shown::Presented(Item::Nmi)) => "nmi".to_string(),
        Ok(Shown::Presented(Item::Vector(v))) => format!("vector {v:#x}"),
        Ok(Shown::Window(v)) => format!("window {v:#x}"),
        Err(code) => format!("refused {code:#x}"),
    }
}

/// The bytes that are not zero, in rising order.
fn bytes(page: &[u8]) -> String {
    let mut text = String::new();
    for (offset, &byte) in page.iter().enumerate() {
        if byte != 0 {
            write!(text, " {offset:#x}={byte:#x}").unwrap();
        }
    }
    text
}

fn numbers(list: &[u32]) -> String {
    list.iter().map(|number| format!(" {number:#x}")).collect()
}

/// The lines for `state`, each with its newline.
pub fn state(m: &Module) -> String {
    let mut text = format!(
        "module n={:#x} vmpl={:#x} count={:#x}\n",
        m.n, m.vmpl, m.count
    );
    for (id, record) in m.records.iter().enumerate() {
        writeln!(text, "vcpu {id:#x} {}", record_text(record)).unwrap();
    }
    text
}

fn record_text(r: &Record) -> String {
    let phase = match r.phase {
        Phase::Active => "active",
        Phase::Leaving => "leaving",
        Phase::Left => "left",
    };
    let flight = match r.flight {
        None => "nothing".to_string(),
        Some(Item::MachineCheck) => "mc".to_string(),
        Some(Item::Nmi) => "nmi".to_string(),
        Some(Item::Vector(v)) => format!("{v:#x}"),
    };
    format!(
        "phase={phase} flight={flight} nmi={:#x} tpr={:#x} icr={:#x} allowed={} pending={} \
         service={} pending_level={} serving_level={} mc={:#x} summary={:#x}",
        u8::from(r.nmi),
        r.tpr,
        r.icr,
        set(&r.allowed),
        set(&r.pending),
        set(&r.service),
        set(&r.pending_level),
        set(&r.serving_level),
        u8::from(r.machine_check),
        r.pending.summary()
    )
}

fn set(set: &VectorSet) -> String {
    let members: Vec<String> = set.members().iter().map(|v| format!("{v:#x}")).collect();
    format!("{{{}}}", members.join(","))
}

/// An event as a line of a trace.
impl Display for Event {
    fn fmt(&self, f: &mut std::fmt::Formatter<'_>) -> std::fmt::Result {
        match self {
            Event::Start { n, vmpl } => write!(f, "start {n} {vmpl}"),
            Event::Notice { vcpu, page } => {
                write!(f, "notice {vcpu} {}{}", page.len(), bytes(page))
            }
            Event::Call {
                vcpu,
                call,
                ecx,
                rdx,
            } => {
                write!(f, "call {vcpu} {call} {ecx:#x} {rdx:#x}")
            }
            Event::Entry {
                vcpu,
                if_set,
                shadow,
                blocked,
            } => {
                let [i, s, b] = [if_set, shadow, blocked].map(|flag| u8::from(*flag));
                write!(f, "entry {vcpu} {i} {s} {b}")
            }
            Event::NonDelivery { vcpu } => write!(f, "nondelivery {vcpu}"),
            Event::HandBack {
                vcpu,
                if_set,
                shadow,
                page,
            } => {
                let [i, s] = [if_set, shadow].map(|flag| u8::from(*flag));
                write!(f, "handback {vcpu} {i} {s} {}{}", page.len(), bytes(page))
            }
            Event::Allow {
                vcpu,
                values,
                codes,
            } => {
                // All entries are the same; where there is none, any FILL does.
                let fill = codes.first().unwrap_or(&u32::MAX);
                write!(f, "allow {vcpu} {} {fill:#x}", codes.len())?;
                write!(f, "{}", numbers(values))
            }
        }
    }
}
