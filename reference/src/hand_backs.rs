//! Which code a hand-back gets, and which vCPUs have left, told from a list, its answers and the
//! book alone (13.103, 13.104). No module is looked at here.

use std::collections::BTreeSet;

use crate::answers::require;
use crate::book::Book;
use crate::codes::{HAS_LEFT, NOT_ACTIVE, STILL_ACTIVE};
use crate::demand3::{entry_of, opened};
use crate::events::{Answer, Event};
use crate::state::Phase;

/// At every event of a list: a list cut short is a list too. It begins with a start, so no vCPU has
/// left at first.
pub fn hold(list: &[Event], answers: &[Answer]) -> Result<(), String> {
    let (mut book, _) = opened(list);
    let mut handed_back = BTreeSet::new();
    for (index, (event, answer)) in list.iter().zip(answers).enumerate() {
        let at = |reason| format!("event {index}: {reason}");
        coded(&book, &handed_back, event, answer).map_err(at)?;
        if let Some(entry) = entry_of(event) {
            book.enter(&entry);
        }
        if let (Event::HandBack { vcpu, .. }, Answer::HandBack(Ok(_))) = (event, answer) {
            handed_back.insert(*vcpu);
        }
        require(
            left(&book) == handed_back,
            "other vCPUs have left than those with an accepted hand-back",
        )
        .map_err(at)?;
    }
    Ok(())
}

/// 13.104, and 11.24 for the other events. An unknown vCPU is neither active nor handed back, so it
/// gets neither 3 nor 7 (11.17).
fn coded(book: &Book, handed_back: &BTreeSet<u32>, e: &Event, a: &Answer) -> Result<(), String> {
    let Some(vcpu) = e.vcpu() else {
        return Ok(());
    };
    let (code, has_left) = (a.refusal(), handed_back.contains(&vcpu));
    if !matches!(e, Event::HandBack { .. }) {
        return require(
            !has_left || code == Some(NOT_ACTIVE),
            "an event on a vCPU that has left has another code than 0x80000001",
        );
    }
    require(
        (code == Some(HAS_LEFT)) == has_left,
        "code 7 without an earlier accepted hand-back, or such a one without code 7",
    )?;
    require(
        (code == Some(STILL_ACTIVE)) == book.active(vcpu),
        "code 3 for a vCPU that is not active, or an active one without code 3",
    )
}

fn left(book: &Book) -> BTreeSet<u32> {
    let phases = (0..book.n).zip(&book.vcpus);
    phases
        .filter(|(_, page)| page.phase == Phase::Left)
        .map(|(vcpu, _)| vcpu)
        .collect()
}
