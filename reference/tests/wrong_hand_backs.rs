//! Gates with a wrong code for a hand-back, or for another event on a vCPU that has left (02, A8).
//! Their modules are right, so only answers can show them: a comparison on generated lists, the
//! tables of codes, and the check of the codes of hand-backs (13.103, 13.104) must each find all.

mod common;

use common::answers_differ;
use common::hand_backs::{others, table};
use reference::codes::{Code, HAS_LEFT, SHORT_PAGE, STILL_ACTIVE, UNKNOWN_VCPU};
use reference::demand3::{check, played, Gate};
use reference::events::{step, Answer, Event};
use reference::generate::lists;
use reference::hand_backs;
use reference::state::{Module, Phase};

/// Another code in the place of the one that refused a hand-back, told the vCPU and the length of
/// its page.
fn recoded(
    m: &mut Module,
    event: &mut Event,
    wrong: fn(&Module, u32, usize, Code) -> Code,
) -> Answer {
    match (step(m, event), &*event) {
        (Answer::HandBack(Err(code)), Event::HandBack { vcpu, page, .. }) => {
            Answer::HandBack(Err(wrong(m, *vcpu, page.len(), code)))
        }
        (answer, _) => answer,
    }
}

/// Against 11.3: 7 for an active vCPU.
fn active_gets_7(m: &mut Module, event: &mut Event) -> Answer {
    recoded(m, event, |_, _, _, code| match code {
        STILL_ACTIVE => HAS_LEFT,
        code => code,
    })
}

/// Against 11.3: 7 for an active vCPU once nobody is registered any more.
fn unregistered_gets_7(m: &mut Module, event: &mut Event) -> Answer {
    recoded(m, event, |m, _, _, code| match code {
        STILL_ACTIVE if m.count == 0 => HAS_LEFT,
        code => code,
    })
}

/// Against 11.23: 3 for a vCPU that has left, as it was before the request.
fn left_gets_3(m: &mut Module, event: &mut Event) -> Answer {
    recoded(m, event, |_, _, _, code| match code {
        HAS_LEFT => STILL_ACTIVE,
        code => code,
    })
}

/// Against 11.17: the page before the phase, of a vCPU that has left.
fn page_before_7(m: &mut Module, event: &mut Event) -> Answer {
    recoded(m, event, |_, _, length, code| match code {
        HAS_LEFT if length < 256 => SHORT_PAGE,
        code => code,
    })
}

/// Against 11.17: the page before the phase, of an active one.
fn page_before_3(m: &mut Module, event: &mut Event) -> Answer {
    recoded(m, event, |_, _, length, code| match code {
        STILL_ACTIVE if length < 256 => SHORT_PAGE,
        code => code,
    })
}

/// Against 11.17: a vCPU at n or above is taken for one that has left.
fn unknown_gets_7(m: &mut Module, event: &mut Event) -> Answer {
    recoded(m, event, |_, _, _, code| match code {
        UNKNOWN_VCPU => HAS_LEFT,
        code => code,
    })
}

/// Against 11.17: the same, where there is room for a record in a module of 32.
fn missing_gets_7(m: &mut Module, event: &mut Event) -> Answer {
    recoded(m, event, |_, vcpu, _, code| match code {
        UNKNOWN_VCPU if vcpu < 32 => HAS_LEFT,
        code => code,
    })
}

/// Against 11.3: an unknown vCPU is taken for an active one.
fn unknown_gets_3(m: &mut Module, event: &mut Event) -> Answer {
    recoded(m, event, |_, _, _, code| match code {
        UNKNOWN_VCPU => STILL_ACTIVE,
        code => code,
    })
}

/// Against 10.2: 3 or 7 hangs on whether anything is allowed there, which a hand-back empties.
fn told_by_the_allowed_set(m: &mut Module, event: &mut Event) -> Answer {
    recoded(m, event, |m, vcpu, _, code| match code {
        STILL_ACTIVE if m.record(vcpu).allowed.is_empty() => HAS_LEFT,
        code => code,
    })
}

/// Whether the event is on a vCPU that has left.
fn on_left(m: &Module, event: &Event) -> bool {
    let known = event.vcpu().filter(|&vcpu| m.known(vcpu).is_ok());
    known.is_some_and(|vcpu| m.record(vcpu).phase == Phase::Left)
}

/// Against 11.24: 7 for a notice on a vCPU that has left.
fn notice_gets_7(m: &mut Module, event: &mut Event) -> Answer {
    match step(m, event) {
        Answer::Notice(_) if on_left(m, event) => Answer::Notice(Err(HAS_LEFT)),
        answer => answer,
    }
}

/// Against 11.24: 7 for a guest call.
fn call_gets_7(m: &mut Module, event: &mut Event) -> Answer {
    match step(m, event) {
        Answer::Call(_) if on_left(m, event) => Answer::Call(Err(HAS_LEFT)),
        answer => answer,
    }
}

/// Against 11.24: 7 for an entry.
fn entry_gets_7(m: &mut Module, event: &mut Event) -> Answer {
    match step(m, event) {
        Answer::Entry(_) if on_left(m, event) => Answer::Entry(Err(HAS_LEFT)),
        answer => answer,
    }
}

/// Against 11.24: 7 for a non-delivery.
fn non_delivery_gets_7(m: &mut Module, event: &mut Event) -> Answer {
    match step(m, event) {
        Answer::NonDelivery(_) if on_left(m, event) => Answer::NonDelivery(Err(HAS_LEFT)),
        answer => answer,
    }
}

/// Against 11.24: 7 for a list of values.
fn list_gets_7(m: &mut Module, event: &mut Event) -> Answer {
    match step(m, event) {
        Answer::Allow(_) if on_left(m, event) => Answer::Allow(Err(HAS_LEFT)),
        answer => answer,
    }
}

const WRONG_CODES: [(&str, Gate); 9] = [
    ("active_gets_7", active_gets_7),
    ("unregistered_gets_7", unregistered_gets_7),
    ("left_gets_3", left_gets_3),
    ("page_before_7", page_before_7),
    ("page_before_3", page_before_3),
    ("unknown_gets_7", unknown_gets_7),
    ("missing_gets_7", missing_gets_7),
    ("unknown_gets_3", unknown_gets_3),
    ("told_by_the_allowed_set", told_by_the_allowed_set),
];

const WRONG_OTHERS: [(&str, Gate); 5] = [
    ("notice_gets_7", notice_gets_7),
    ("call_gets_7", call_gets_7),
    ("entry_gets_7", entry_gets_7),
    ("non_delivery_gets_7", non_delivery_gets_7),
    ("list_gets_7", list_gets_7),
];

/// On generated lists, by a comparison.
#[test]
fn wrong_codes_differ() {
    assert!(!answers_differ(step));
    for (name, gate) in WRONG_CODES.into_iter().chain(WRONG_OTHERS) {
        assert!(answers_differ(gate), "{name}");
    }
}

/// Each by the table that it breaks, and by that one alone.
#[test]
fn the_tables_find_them() {
    for (name, gate) in WRONG_CODES {
        assert!(table(gate).is_err() && others(gate).is_ok(), "{name}");
    }
    for (name, gate) in WRONG_OTHERS {
        assert!(table(gate).is_ok() && others(gate).is_err(), "{name}");
    }
}

/// Demand 3 and the sums hold of all of them. What `reference check` finds is the code.
#[test]
fn the_check_finds_them() {
    for (name, gate) in WRONG_CODES {
        let verdict = check(6, 10_000, gate).unwrap_err();
        let found = verdict.contains(": code 7 without") || verdict.contains(": code 3 for");
        assert!(found, "{name}: {verdict}");
    }
    for (name, gate) in WRONG_OTHERS {
        let verdict = check(6, 10_000, gate).unwrap_err();
        let found = verdict.contains(": an event on a vCPU that has left");
        assert!(found, "{name}: {verdict}");
    }
}

/// Against 13.103: a hand-back is said to be accepted of a vCPU that is still active, refused
/// although it was done, and done although it was refused.
#[test]
fn who_has_left() {
    let says_accepted: Gate = |m, event| match step(m, event) {
        Answer::HandBack(Err(STILL_ACTIVE)) => Answer::HandBack(Ok(0)),
        answer => answer,
    };
    let says_short: Gate = |m, event| match step(m, event) {
        Answer::HandBack(Ok(_)) => Answer::HandBack(Err(SHORT_PAGE)),
        answer => answer,
    };
    let says_done: Gate = |m, event| match step(m, event) {
        Answer::HandBack(Err(SHORT_PAGE)) => Answer::HandBack(Ok(0)),
        answer => answer,
    };
    for (gate, expected) in [
        (says_accepted, "code 3 for"),
        (says_short, "other vCPUs have left"),
        (says_done, "other vCPUs have left"),
    ] {
        let lists = lists(6, 10_000);
        let mut faults = lists
            .iter()
            .filter_map(|list| hand_backs::hold(list, &played(list, gate).answers).err());
        let first = faults.next().expect("a fault");
        assert!(first.contains(expected), "{first}");
    }
}
