//! Which answers and codes occur in an output.

use std::collections::BTreeMap;
use std::io::{BufRead, Result};

use crate::lines::Lines;

/// The lines that can be printed (`docs/REPLAY.md`, section 11), numbers left out but for codes.
const EXPECTED: [&str; 42] = [
    "start ok",
    "start refused 0x5",
    "notice ok, no item",
    "notice ok, new",
    "notice ok, merged",
    "notice ok, new and merged",
    "notice refused 0x1",
    "notice refused 0x80000001",
    "notice refused 0x2",
    "call ok",
    "call refused 0x1",
    "call refused 0x80000001",
    "call refused 0x80000002",
    "call refused 0x80000003",
    "call refused 0x80000005",
    "call refused 0x80000007",
    "call refused 0x80001000",
    "entry nothing",
    "entry mc",
    "entry nmi",
    "entry vector",
    "entry window",
    "entry refused 0x1",
    "entry refused 0x80000001",
    "nondelivery ok",
    "nondelivery refused 0x1",
    "nondelivery refused 0x80000001",
    "nondelivery refused 0x4",
    "handback ok",
    "handback refused 0x1",
    "handback refused 0x3",
    "handback refused 0x7",
    "handback refused 0x2",
    "allow ok",
    "allow refused 0x1",
    "allow refused 0x80000001",
    "allow refused 0x6",
    "ask yes",
    "ask no",
    "error line",
    "module",
    "vcpu",
];

pub struct Coverage {
    counts: BTreeMap<String, u64>,
}

/// The kind of a line: what of it does not depend on a number, but for codes.
fn kind(line: &str) -> String {
    let words: Vec<&str> = line.split(' ').collect();
    match words.as_slice() {
        ["module", ..] | ["vcpu", ..] => words[0].to_string(),
        [event, "refused", code, ..] => format!("{event} refused {code}"),
        ["notice", "ok", new, merged, "page", ..] => {
            format!("notice ok, {}", admission(new, merged))
        }
        [event, answer, ..] => format!("{event} {answer}"),
        _ => line.to_string(),
    }
}

/// Which of a notice's two numbers are above 0 (4.29, 4.37); with `merged` alone it was superfluous.
fn admission(new: &str, merged: &str) -> &'static str {
    match (new, merged) {
        ("0x0", "0x0") => "no item",
        (_, "0x0") => "new",
        ("0x0", _) => "merged",
        _ => "new and merged",
    }
}

impl Coverage {
    pub fn of(output: impl BufRead) -> Result<Coverage> {
        let mut lines = Lines::new(output);
        let mut line = Vec::new();
        let mut counts = BTreeMap::new();
        while lines.next(&mut line)? {
            *counts
                .entry(kind(&String::from_utf8_lossy(&line)))
                .or_insert(0) += 1;
        }
        Ok(Coverage { counts })
    }

    pub fn count(&self, kind: &str) -> u64 {
        self.counts.get(kind).copied().unwrap_or(0)
    }

    pub fn missing(&self) -> Vec<&'static str> {
        EXPECTED
            .into_iter()
            .filter(|kind| self.count(kind) == 0)
            .collect()
    }

    /// Lines that are none of these.
    pub fn unexpected(&self) -> Vec<&str> {
        let known = |kind: &str| EXPECTED.contains(&kind);
        self.counts
            .keys()
            .map(|kind| kind.as_str())
            .filter(|kind| !known(kind))
            .collect()
    }

    pub fn complete(&self) -> bool {
        self.missing().is_empty() && self.unexpected().is_empty()
    }

    pub fn report(&self) -> String {
        report(&EXPECTED, &self.counts)
            + &listed("missing", &self.missing())
            + &listed("not among the answers", &self.unexpected())
    }
}

pub fn report(kinds: &[&str], counts: &BTreeMap<String, u64>) -> String {
    let line = |&kind: &&str| {
        let count = counts.get(kind).copied().unwrap_or(0);
        format!("{count:>9} {kind}\n")
    };
    kinds.iter().map(line).collect()
}

pub fn listed(title: &str, kinds: &[&str]) -> String {
    if kinds.is_empty() {
        format!("{title}: none\n")
    } else {
        format!("{title}: {}\n", kinds.join(", "))
    }
}
