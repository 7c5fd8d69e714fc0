//! Demand 3, checked on generated lists.
//!
//! (a) Isolation (13.20, 13.21), tried on a list and its twin.
//! (b) The bound (13.26, 13.27). A list cut short is a list too, so it is checked at each event.
//!
//! With both goes what the answers say of pending items (13.25, 13.42 to 13.46), see `answers`;
//! that the sums meet (13.88), see `sums_check`; and which hand-backs get which code (13.103,
//! 13.104), see `hand_backs`.

use crate::answers;
use crate::book::{Book, Entry};
use crate::events::{ask, Answer, Event, Shown};
use crate::generate;
use crate::hand_backs;
use crate::page::{admitted, Admitted};
use crate::random::Random;
use crate::set::VectorSet;
use crate::state::{start, Item, Module};
use crate::sums::{Rules, Sums};
use crate::sums_check;
use crate::twin;

/// Anything that answers events: the reference, or a wrong gate in a test of this check.
pub type Gate = fn(&mut Module, &mut Event) -> Answer;

/// What isolation compares (13.21).
#[derive(PartialEq, Eq, Debug)]
pub struct Played {
    pub answers: Vec<Answer>,
    pub hand_back_pages: Vec<Vec<u8>>,
    /// The second lists, each after its event (5.29).
    pub codes: Vec<Vec<u32>>,
    /// The question (8.21 to 8.23) of each event's vCPU, asked behind the event.
    pub asked: Vec<bool>,
    pub module: Module,
}

pub fn played(list: &[Event], gate: Gate) -> Played {
    let mut p = Played {
        answers: vec![],
        hand_back_pages: vec![],
        codes: vec![],
        asked: vec![],
        module: Module::refused(),
    };
    for event in list {
        let mut event = event.clone();
        p.answers.push(gate(&mut p.module, &mut event));
        p.asked
            .push(event.vcpu().is_some_and(|vcpu| ask(&p.module, vcpu)));
        match event {
            Event::HandBack { page, .. } => p.hand_back_pages.push(page),
            Event::Allow { codes, .. } => p.codes.push(codes),
            _ => {}
        }
    }
    p
}

/// The book and the VMPL that a list opens with (12.8); start stands first in the list.
pub fn opened(list: &[Event]) -> (Book, u32) {
    let Some(Event::Start { n, vmpl }) = list.first() else {
        panic!("a list begins with start");
    };
    let (_, module) = start(*n, *vmpl);
    (Book::of(&module), module.vmpl)
}

/// 12.9
pub fn entry_of(event: &Event) -> Option<Entry<'_>> {
    match event {
        Event::Call {
            vcpu, call, ecx, ..
        } => Some(Entry::Call {
            vcpu: *vcpu,
            call: *call,
            ecx: *ecx,
        }),
        Event::HandBack { vcpu, page, .. } => Some(Entry::HandBack {
            vcpu: *vcpu,
            length: page.len(),
        }),
        Event::Allow {
            vcpu,
            values,
            codes,
        } => Some(Entry::Allow {
            vcpu: *vcpu,
            values,
            length: codes.len(),
        }),
        _ => None,
    }
}

/// 12.18: the vCPU's set in the book, if a notice with a page so long is accepted by it.
pub fn accepting(book: &Book, vcpu: u32, length: usize) -> Option<&VectorSet> {
    if book.active(vcpu) && length >= 256 {
        Some(&book.vcpus[vcpu as usize].allowed)
    } else {
        None
    }
}

/// 12.19, 12.20
pub fn admitted_by_book(book: &Book, vmpl: u32, vcpu: u32, page: &[u8]) -> Admitted {
    match accepting(book, vcpu, page.len()) {
        Some(allowed) => admitted(page, vmpl, allowed),
        None => Admitted::nothing(),
    }
}

/// 13.26: only an entry can break the bound.
fn bound(sums: &Sums, event: &Event, answer: &Answer) -> Result<(), String> {
    let (Event::Entry { vcpu, .. }, Answer::Entry(Ok(Shown::Presented(item)))) = (event, answer)
    else {
        return Ok(());
    };
    let counts = sums.counts(*vcpu, *item);
    if counts.presented <= counts.came() {
        Ok(())
    } else {
        Err(format!("{item:?} presented too often on vCPU {vcpu}"))
    }
}

/// Part (b) at every event of a list; gives the counts and the book after it.
fn counted(list: &[Event], answers: &[Answer]) -> Result<Sums, String> {
    let (book, vmpl) = opened(list);
    let mut sums = Sums::new(book, vmpl, Rules::RIGHT);
    for (index, (event, answer)) in list.iter().zip(answers).enumerate() {
        sums.count(event, answer)
            .and_then(|()| bound(&sums, event, answer))
            .map_err(|reason| format!("event {index}: {reason}"))?;
    }
    Ok(sums)
}

/// How many more times the bound lets this item be presented there after the list.
pub fn remaining(list: &[Event], played: &Played, vcpu: u32, item: Item) -> Result<u64, String> {
    let counts = counted(list, &played.answers)?.counts(vcpu, item);
    Ok(counts.came() - counts.presented)
}

/// Part (b), and that book and module agree when the list is over (13.22).
pub fn bounded(list: &[Event], played: &Played) -> Result<(), String> {
    if counted(list, &played.answers)?.book == Book::of(&played.module) {
        Ok(())
    } else {
        Err("the book differs from the module at the end".to_string())
    }
}

/// Part (a), for the list and one twin.
pub fn alike(first: &Played, second: &Played) -> Result<(), String> {
    let differs = first
        .answers
        .iter()
        .zip(&second.answers)
        .position(|(a, b)| a != b);
    if let Some(index) = differs {
        return Err(format!("event {index}: the twin's result differs"));
    }
    if first.asked != second.asked {
        return Err("the answer to a question differs from the twin's".to_string());
    }
    if first.hand_back_pages != second.hand_back_pages {
        return Err("a page after a hand-back differs from the twin's".to_string());
    }
    if first.codes != second.codes {
        return Err("a second list differs from the twin's".to_string());
    }
    if first.module != second.module {
        return Err("the final module differs from the twin's".to_string());
    }
    Ok(())
}

/// Both parts for one list, what its answers say of pending items, its sums and the codes of its
/// hand-backs; says how many notice pages the twin has changed.
pub fn check_list(list: &[Event], random: &mut Random, gate: Gate) -> Result<usize, String> {
    let (second, changed) = twin::twin(random, list);
    let (one, two) = (played(list, gate), played(&second, gate));
    alike(&one, &two)?;
    bounded(list, &one)?;
    bounded(&second, &two)?;
    answers::hold(list, gate)?;
    answers::hold(&second, gate)?;
    sums_check::hold(list, gate, Rules::RIGHT)?;
    sums_check::hold(&second, gate, Rules::RIGHT)?;
    hand_backs::hold(list, &one.answers)?;
    hand_backs::hold(&second, &two.answers)?;
    Ok(changed)
}

/// The whole check; the text is its verdict, an error the failed one.
pub fn check(seed: u64, count: usize, gate: Gate) -> Result<String, String> {
    let mut random = Random::new(seed ^ 0x7477_696E);
    let lists = generate::lists(seed, count);
    let mut changed = 0;
    for (index, list) in lists.iter().enumerate() {
        changed += check_list(list, &mut random, gate)
            .map_err(|reason| format!("seed {seed}: the check FAILS in list {index}: {reason}"))?;
    }
    let notices = lists
        .iter()
        .flatten()
        .filter(|e| matches!(e, Event::Notice { .. }))
        .count();
    Ok(format!(
        "seed {seed}: demand 3, the sums and the codes of hand-backs hold for {} lists of {count} \
         events, {changed} of {notices} notice pages changed",
        lists.len()
    ))
}
