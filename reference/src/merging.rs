//! How often the requests of a trace meet what is pending, in service or in flight, and what becomes
//! of machine checks, of lists of values, of questions, of returned items and of what a leaving vCPU
//! has. Answers alone do not tell whom an IPI reached, nor which item was admitted, so the trace is
//! played.

use std::collections::BTreeMap;
use std::io::{BufRead, Result};

use crate::coverage::{listed, report};
use crate::events::{step, Answer, Event};
use crate::ipi::Ipi;
use crate::lines::Lines;
use crate::machine_checks;
use crate::outcomes;
use crate::page::{admitted, Admitted};
use crate::questions;
use crate::state::{Item, Module, Phase, Record};
use crate::trace::{read, Line};
use crate::unreadable::Unreadable;
use crate::value_lists;

/// Of an accepted notice each kind that one of its items has, of an accepted IPI the one it has.
pub const REQUESTS: [&str; 15] = [
    "notice, NMI, was pending",
    "notice, level-sensitive, was pending as edge",
    "notice, edge, was pending as level-sensitive",
    "notice, in service and not pending",
    "notice, in flight and not pending",
    "vector IPI, nobody reached",
    "vector IPI, all reached are named",
    "vector IPI, some reached are not named",
    "vector IPI, none reached is named",
    "NMI IPI, nobody reached",
    "NMI IPI, all reached are named",
    "NMI IPI, some reached are not named",
    "NMI IPI, none reached is named",
    "self-IPI, named",
    "self-IPI, not named",
];

fn expected() -> Vec<&'static str> {
    [
        &REQUESTS[..],
        &machine_checks::KINDS,
        &value_lists::KINDS,
        &questions::KINDS,
        &outcomes::KINDS,
    ]
    .concat()
}

pub struct Merging {
    counts: BTreeMap<String, u64>,
    unreadable: Unreadable,
}

impl Merging {
    pub fn of(trace: impl BufRead) -> Result<Merging> {
        let mut lines = Lines::new(trace);
        let mut line = Vec::new();
        let mut module = Module::refused();
        let mut counts = BTreeMap::new();
        let mut unreadable = Unreadable::default();
        let mut last = Line::PassedOver;
        while lines.next(&mut line)? {
            let line = read(&line);
            if line == Line::Unreadable {
                unreadable.add(lines.number);
            }
            for kind in kinds_of_line(&mut module, &last, &line) {
                *counts.entry(kind).or_insert(0) += 1;
            }
            if line != Line::PassedOver {
                last = line;
            }
        }
        Ok(Merging { counts, unreadable })
    }

    pub fn count(&self, kind: &str) -> u64 {
        self.counts.get(kind).copied().unwrap_or(0)
    }

    /// Of the one of these kinds that is met least.
    pub fn fewest(&self, kinds: &[&str]) -> u64 {
        let counts = kinds.iter().map(|kind| self.count(kind));
        counts.min().expect("there are kinds")
    }

    pub fn missing(&self) -> Vec<&'static str> {
        expected()
            .into_iter()
            .filter(|kind| self.count(kind) == 0)
            .collect()
    }

    /// A generated trace has unreadable lines on purpose, one written by hand has not.
    pub fn report(&self) -> String {
        let passed_over = match self.unreadable.any() {
            true => format!("passed over: {}\n", self.unreadable.told()),
            false => String::new(),
        };
        report(&expected(), &self.counts) + &passed_over + &listed("missing", &self.missing())
    }
}

/// The kinds of a line, which is played; `last` is the one before it.
fn kinds_of_line(module: &mut Module, last: &Line, line: &Line) -> Vec<String> {
    let Line::Event(event) = line else {
        return questions::kinds(module, line);
    };
    let before = module.clone();
    let answer = step(module, &mut event.clone());
    let mut found = questions::behind(last, event, &answer);
    for kinds in [
        kinds,
        machine_checks::kinds,
        value_lists::kinds,
        outcomes::kinds,
    ] {
        found.extend(kinds(&before, event, &answer));
    }
    found
}

fn kinds(before: &Module, event: &Event, answer: &Answer) -> Vec<String> {
    match (event, answer, Ipi::of(event)) {
        (Event::Notice { vcpu, page }, Answer::Notice(Ok(_)), _) => {
            let record = before.record(*vcpu);
            notice_kinds(record, &admitted(page, before.vmpl, &record.allowed))
        }
        (_, Answer::Call(Ok(named)), Some(ipi)) => vec![ipi_kind(before, &ipi, *named)],
        _ => vec![],
    }
}

fn notice_kinds(r: &Record, part: &Admitted) -> Vec<String> {
    let items = part.items();
    let any_new = |met: &dyn Fn(Item) -> bool| items.iter().any(|&i| !r.has_pending(i) && met(i));
    let as_edge = r.pending.without(&r.pending_level);
    let in_service = |item| matches!(item, Item::Vector(v) if r.service.has(v));
    let kinds = [
        ("NMI, was pending", part.nmi && r.nmi),
        (
            "level-sensitive, was pending as edge",
            part.level.is_some_and(|v| as_edge.has(v)),
        ),
        (
            "edge, was pending as level-sensitive",
            part.edge.members().iter().any(|&v| r.pending_level.has(v)),
        ),
        ("in service and not pending", any_new(&in_service)),
        (
            "in flight and not pending",
            any_new(&|item| r.flight == Some(item)),
        ),
    ];
    let held = kinds.iter().filter(|(_, holds)| *holds);
    held.map(|(kind, _)| format!("notice, {kind}")).collect()
}

fn ipi_kind(before: &Module, ipi: &Ipi, named: u64) -> String {
    let what = match (ipi.is_self_ipi(), ipi.item) {
        (true, _) if named == 0 => return "self-IPI, not named".to_string(),
        (true, _) => return "self-IPI, named".to_string(),
        (false, Item::Nmi) => "NMI IPI",
        (false, _) => "vector IPI",
    };
    let whom = match (reached(before, ipi), named) {
        (0, _) => "nobody reached",
        (_, 0) => "none reached is named",
        (reached, _) if named == reached => "all reached are named",
        _ => "some reached are not named",
    };
    format!("{what}, {whom}")
}

/// The active targets, as bits (7.16).
fn reached(m: &Module, ipi: &Ipi) -> u64 {
    (0..m.n)
        .filter(|&id| ipi.targets(id) && m.record(id).phase == Phase::Active)
        .map(|id| 2u64.pow(id))
        .sum()
}
