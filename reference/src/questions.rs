//! The questions of a trace (8.21 to 8.23): what they are answered by; and the bytes that `state` lines show.

use crate::events::{ask, Answer, Event};
use crate::registers::class;
use crate::state::{Module, Phase, Record};
use crate::trace::Line;

/// A line has each of these kinds that it is of; a `state` line those of every vCPU.
pub const KINDS: [&str; 18] = [
    "ask yes, machine check",
    "ask yes, NMI and no vector",
    "ask yes, NMI before a vector",
    "ask yes, vector",
    "ask yes, in flight",
    "ask no, nothing pending",
    "ask no, vector held by the TPR",
    "ask no, vector held by one in service",
    "ask no, in flight",
    "ask no, unknown vCPU",
    "ask no, vCPU leaving, nothing pending",
    "ask no, vCPU leaving, something pending",
    "ask no, vCPU left",
    "non-delivery right behind an ask",
    "entry right behind an ask",
    "state, summary 0",
    "state, summary of one bit",
    "state, summary of several bits",
];

/// Of a line that is no event.
pub fn kinds(m: &Module, line: &Line) -> Vec<String> {
    match line {
        Line::Ask(vcpu) => asked(m, *vcpu),
        Line::State => m.records.iter().map(|r| shown(r).to_string()).collect(),
        _ => vec![],
    }
}

/// Of an event whose vCPU was asked about in the line before: what is in flight is still there (9.2), and what an entry
/// presents was told.
pub fn behind(last: &Line, event: &Event, answer: &Answer) -> Vec<String> {
    let kind = match (event, answer) {
        (Event::NonDelivery { .. }, Answer::NonDelivery(Ok(_))) => {
            "non-delivery right behind an ask"
        }
        (Event::Entry { .. }, Answer::Entry(Ok(_))) => "entry right behind an ask",
        _ => return vec![],
    };
    match (last, event.vcpu()) {
        (Line::Ask(vcpu), Some(own)) if *vcpu == own => vec![kind.to_string()],
        _ => vec![],
    }
}

fn shown(record: &Record) -> &'static str {
    match record.pending.summary().count_ones() {
        0 => "state, summary 0",
        1 => "state, summary of one bit",
        _ => "state, summary of several bits",
    }
}

fn asked(m: &Module, vcpu: u32) -> Vec<String> {
    if m.known(vcpu).is_err() {
        return vec!["ask no, unknown vCPU".to_string()];
    }
    let r = m.record(vcpu);
    let (kind, in_flight) = if ask(m, vcpu) {
        (why_yes(r), "ask yes, in flight")
    } else {
        (why_no(r), "ask no, in flight")
    };
    let mut found = vec![kind.to_string()];
    if r.flight.is_some() {
        found.push(in_flight.to_string());
    }
    found
}

fn why_yes(r: &Record) -> &'static str {
    match (r.machine_check, r.nmi, r.pending.is_empty()) {
        (true, _, _) => "ask yes, machine check",
        (false, true, true) => "ask yes, NMI and no vector",
        (false, true, false) => "ask yes, NMI before a vector",
        (false, false, _) => "ask yes, vector",
    }
}

fn why_no(r: &Record) -> &'static str {
    let any = r.nmi || r.machine_check || !r.pending.is_empty();
    match (r.phase, r.pending.highest()) {
        (Phase::Left, _) => "ask no, vCPU left",
        (Phase::Leaving, _) if any => "ask no, vCPU leaving, something pending",
        (Phase::Leaving, _) => "ask no, vCPU leaving, nothing pending",
        (Phase::Active, None) => "ask no, nothing pending",
        (Phase::Active, Some(v)) if class(v) <= class(r.tpr.into()) => {
            "ask no, vector held by the TPR"
        }
        (Phase::Active, Some(_)) => "ask no, vector held by one in service",
    }
}
