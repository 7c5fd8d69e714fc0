//! The lists of ECX values in a trace (5.26): their sizes, what becomes of them, and what is in flight
//! meanwhile.

use std::collections::BTreeSet;

use crate::calls::allow_rule;
use crate::codes::BAD_LIST;
use crate::events::{Answer, Event};
use crate::state::{Module, Phase};

/// An event has each of these kinds that it is of. A size, or a length of the second list, counts where
/// nothing else decides: on an active vCPU, and with the other list as it should be.
pub const KINDS: [&str; 26] = [
    "list of no value",
    "list of 1 value",
    "list of 2 to 254 values",
    "list of 255 values",
    "list of 256 values",
    "list of 257 values",
    "list of more values",
    "list, second list shorter by one",
    "list, second list shorter by more",
    "list, second list as long",
    "list, second list longer",
    "list, every value accepted",
    "list, some values accepted",
    "list, no value accepted",
    "list, a value again",
    "list, a vector put in, then taken out",
    "list, a vector taken out, then put in",
    "list, in flight, no value",
    "list, in flight, no value accepted",
    "list, in flight, some values accepted",
    "list, in flight, refused",
    "list, unknown vCPU",
    "list, unknown vCPU, and code 6 behind it",
    "list, vCPU leaving",
    "list, vCPU left",
    "list, vCPU not active, and code 6 behind it",
];

pub fn kinds(before: &Module, event: &Event, answer: &Answer) -> Vec<String> {
    let (
        Event::Allow {
            vcpu,
            values,
            codes,
        },
        Answer::Allow(answer),
    ) = (event, answer)
    else {
        return vec![];
    };
    let (few, room) = (values.len() <= 256, codes.len() >= values.len());
    let mut found = order(values);
    if before.active(*vcpu).is_err() {
        found.extend(unserved(before, *vcpu, !few || !room));
    } else {
        let in_flight = before.record(*vcpu).flight.is_some();
        found.push((size(values.len()), room));
        found.extend(lengths(values.len(), codes.len(), few));
        match answer {
            Ok(_) => found.extend(served(values, in_flight)),
            Err(code) => found.push(("list, in flight, refused", in_flight && *code == BAD_LIST)),
        }
    }
    let held = found.iter().filter(|(_, holds)| *holds);
    held.map(|(kind, _)| kind.to_string()).collect()
}

type Found = Vec<(&'static str, bool)>;

fn size(values: usize) -> &'static str {
    match values {
        0 => "list of no value",
        1 => "list of 1 value",
        2..=254 => "list of 2 to 254 values",
        255 => "list of 255 values",
        256 => "list of 256 values",
        257 => "list of 257 values",
        _ => "list of more values",
    }
}

fn lengths(values: usize, codes: usize, few: bool) -> Found {
    let kind = match (codes >= values, codes.abs_diff(values)) {
        (false, 1) => "list, second list shorter by one",
        (false, _) => "list, second list shorter by more",
        (true, 0) => "list, second list as long",
        (true, _) => "list, second list longer",
    };
    vec![(kind, few)]
}

/// Values for one vector, of those that call 4 takes.
fn order(values: &[u32]) -> Found {
    let mut seen = BTreeSet::new();
    let (mut again, mut out, mut back) = (false, false, false);
    for &ecx in values.iter().filter(|&&ecx| allow_rule(ecx)) {
        again |= seen.contains(&ecx);
        out |= ecx < 256 && seen.contains(&(ecx + 256));
        back |= ecx >= 256 && seen.contains(&(ecx - 256));
        seen.insert(ecx);
    }
    vec![
        ("list, a value again", again),
        ("list, a vector put in, then taken out", out),
        ("list, a vector taken out, then put in", back),
    ]
}

fn served(values: &[u32], in_flight: bool) -> Found {
    let taken = values.iter().filter(|&&ecx| allow_rule(ecx)).count();
    let (none, all) = (taken == 0, taken == values.len());
    let any = !values.is_empty();
    vec![
        ("list, every value accepted", any && all),
        ("list, some values accepted", !none && !all),
        ("list, no value accepted", any && none),
        ("list, in flight, no value", in_flight && !any),
        (
            "list, in flight, no value accepted",
            in_flight && any && none,
        ),
        (
            "list, in flight, some values accepted",
            in_flight && !none && !all,
        ),
    ]
}

fn unserved(before: &Module, vcpu: u32, bad: bool) -> Found {
    let unknown = before.known(vcpu).is_err();
    let phase = |phase| !unknown && before.record(vcpu).phase == phase;
    let (leaving, left) = (phase(Phase::Leaving), phase(Phase::Left));
    vec![
        ("list, unknown vCPU", unknown),
        ("list, unknown vCPU, and code 6 behind it", unknown && bad),
        ("list, vCPU leaving", leaving),
        ("list, vCPU left", left),
        (
            "list, vCPU not active, and code 6 behind it",
            (leaving || left) && bad,
        ),
    ]
}
