//! Gates that are wrong about the question of request A6 (02) and right about all else: a comparison of answers must find them, by
//! what the question says or by what it does.

use reference::events::{ask, entry, step, Event, Shown};
use reference::generate::generate;
use reference::print;
use reference::registers::{class, ppr};
use reference::set::VectorSet;
use reference::state::{Module, Phase, Record};
use reference::trace::{read, Line};

/// The lines of a generated trace.
fn lines() -> Vec<Line> {
    let mut trace = Vec::new();
    generate(6, 20_000, &mut trace).unwrap();
    trace.split(|&b| b == b'\n').map(read).collect()
}

/// IF, shadow and NMI-blocked of each vCPU's last entry.
type Seen = [(bool, bool, bool); 32];
type Question = fn(&mut Module, &Seen, u32) -> bool;

/// Whether a line that would be printed differs where the question is answered so and all else is right.
fn differs(question: Question) -> bool {
    let (mut ours, mut theirs) = (Module::refused(), Module::refused());
    let mut seen = [(true, false, false); 32];
    lines().into_iter().any(|line| match line {
        Line::Ask(vcpu) => question(&mut ours, &seen, vcpu) != ask(&theirs, vcpu),
        Line::Event(event) => {
            if let Event::Entry {
                vcpu: vcpu @ 0..=31,
                if_set,
                shadow,
                blocked,
            } = event
            {
                seen[vcpu as usize] = (if_set, shadow, blocked);
            }
            let (mut one, mut other) = (event.clone(), event);
            let (a, b) = (step(&mut ours, &mut one), step(&mut theirs, &mut other));
            print::answer(&one, &a) != print::answer(&other, &b)
        }
        _ => false,
    })
}

fn presents(m: &mut Module, vcpu: u32, if_set: bool, shadow: bool, blocked: bool) -> bool {
    let shown = entry(m, vcpu, if_set, shadow, blocked);
    matches!(shown, Ok(Shown::Presented(_)))
}

/// The answer for an active vCPU whose record is changed beforehand, on a copy.
fn with(m: &Module, vcpu: u32, change: fn(&mut Record)) -> bool {
    let mut copy = m.clone();
    if m.active(vcpu).is_ok() {
        change(copy.record_mut(vcpu));
    }
    ask(&copy, vcpu)
}

/// A leaving vCPU is asked as an active one.
fn leaving_is_asked(m: &mut Module, _: &Seen, vcpu: u32) -> bool {
    let mut copy = m.clone();
    if m.known(vcpu).is_ok() && m.record(vcpu).phase == Phase::Leaving {
        copy.record_mut(vcpu).phase = Phase::Active;
    }
    ask(&copy, vcpu)
}

fn unknown_is_yes(m: &mut Module, _: &Seen, vcpu: u32) -> bool {
    m.known(vcpu).is_err() || ask(m, vcpu)
}

fn eight_bits(m: &mut Module, _: &Seen, vcpu: u32) -> bool {
    ask(m, vcpu % 256)
}

fn sixteen_bits(m: &mut Module, _: &Seen, vcpu: u32) -> bool {
    ask(m, vcpu % 65_536)
}

/// The question is an entry.
fn it_enters(m: &mut Module, _: &Seen, vcpu: u32) -> bool {
    presents(m, vcpu, true, false, false)
}

/// It forgets what is in flight, as an entry does.
fn it_forgets(m: &mut Module, _: &Seen, vcpu: u32) -> bool {
    if m.active(vcpu).is_ok() {
        m.record_mut(vcpu).flight = None;
    }
    ask(m, vcpu)
}

/// It forgets what is in flight where the answer is yes.
fn yes_forgets(m: &mut Module, _: &Seen, vcpu: u32) -> bool {
    let yes = ask(m, vcpu);
    if yes {
        m.record_mut(vcpu).flight = None;
    }
    yes
}

/// What is in flight counts as something to present.
fn in_flight_is_yes(m: &mut Module, _: &Seen, vcpu: u32) -> bool {
    ask(m, vcpu) || m.active(vcpu).is_ok() && m.record(vcpu).flight.is_some()
}

fn in_flight_is_no(m: &mut Module, _: &Seen, vcpu: u32) -> bool {
    ask(m, vcpu) && m.record(vcpu).flight.is_none()
}

fn held_by_the_last_if(m: &mut Module, seen: &Seen, vcpu: u32) -> bool {
    held(m, seen, vcpu, |(if_set, _, _)| (if_set, false, false))
}

fn held_by_the_last_shadow(m: &mut Module, seen: &Seen, vcpu: u32) -> bool {
    held(m, seen, vcpu, |(_, shadow, _)| (true, shadow, false))
}

fn held_by_the_last_blocking(m: &mut Module, seen: &Seen, vcpu: u32) -> bool {
    held(m, seen, vcpu, |(_, _, blocked)| (true, false, blocked))
}

type Flags = (bool, bool, bool);

fn held(m: &Module, seen: &Seen, vcpu: u32, flags: fn(Flags) -> Flags) -> bool {
    let last = seen.get(vcpu as usize).copied();
    let (if_set, shadow, blocked) = flags(last.unwrap_or((true, false, false)));
    presents(&mut m.clone(), vcpu, if_set, shadow, blocked)
}

/// Always as if IF were clear: a window is no.
fn window_is_no(m: &mut Module, _: &Seen, vcpu: u32) -> bool {
    presents(&mut m.clone(), vcpu, false, false, false)
}

/// An NMI is left out, as if NMIs were blocked.
fn nmi_is_no(m: &mut Module, _: &Seen, vcpu: u32) -> bool {
    with(m, vcpu, |record| record.nmi = false)
}

fn machine_check_is_no(m: &mut Module, _: &Seen, vcpu: u32) -> bool {
    with(m, vcpu, |record| record.machine_check = false)
}

/// Whatever is pending, be it held or not.
fn priority_is_not_asked(m: &mut Module, _: &Seen, vcpu: u32) -> bool {
    with(m, vcpu, |record| {
        record.nmi |= !record.pending.is_empty();
    })
}

fn service_is_not_asked(m: &mut Module, _: &Seen, vcpu: u32) -> bool {
    with(m, vcpu, |record| record.service = VectorSet::empty())
}

fn tpr_is_not_asked(m: &mut Module, _: &Seen, vcpu: u32) -> bool {
    with(m, vcpu, |record| record.tpr = 0)
}

/// A vector of the priority's own class is presented.
fn own_class_is_yes(m: &mut Module, _: &Seen, vcpu: u32) -> bool {
    with(m, vcpu, |record| {
        let highest = record.pending.highest();
        record.nmi |= highest.is_some_and(|v| class(v) == class(ppr(record)));
    })
}

/// The lowest pending vector decides.
fn lowest_decides(m: &mut Module, _: &Seen, vcpu: u32) -> bool {
    with(m, vcpu, |record| {
        for v in record.pending.members().into_iter().skip(1) {
            record.pending.take(v);
        }
    })
}

/// Only what is still allowed.
fn allowed_set_is_asked(m: &mut Module, _: &Seen, vcpu: u32) -> bool {
    with(m, vcpu, |record| {
        let lost = record.pending.without(&record.allowed);
        record.pending = record.pending.without(&lost);
    })
}

/// A vector before the NMI: where it is held, so is the NMI.
fn vector_before_the_nmi(m: &mut Module, _: &Seen, vcpu: u32) -> bool {
    with(m, vcpu, |record| record.nmi &= record.pending.is_empty())
}

#[test]
fn wrong_questions_differ() {
    assert!(!differs(|m, _, vcpu| ask(m, vcpu)));
    for (name, question) in [
        ("leaving_is_asked", leaving_is_asked as Question),
        ("unknown_is_yes", unknown_is_yes),
        ("eight_bits", eight_bits),
        ("sixteen_bits", sixteen_bits),
        ("it_enters", it_enters),
        ("it_forgets", it_forgets),
        ("yes_forgets", yes_forgets),
        ("in_flight_is_yes", in_flight_is_yes),
        ("in_flight_is_no", in_flight_is_no),
        ("held_by_the_last_if", held_by_the_last_if),
        ("held_by_the_last_shadow", held_by_the_last_shadow),
        ("held_by_the_last_blocking", held_by_the_last_blocking),
        ("window_is_no", window_is_no),
        ("nmi_is_no", nmi_is_no),
        ("machine_check_is_no", machine_check_is_no),
        ("priority_is_not_asked", priority_is_not_asked),
        ("service_is_not_asked", service_is_not_asked),
        ("tpr_is_not_asked", tpr_is_not_asked),
        ("own_class_is_yes", own_class_is_yes),
        ("lowest_decides", lowest_decides),
        ("allowed_set_is_asked", allowed_set_is_asked),
        ("vector_before_the_nmi", vector_before_the_nmi),
    ] {
        assert!(differs(question), "{name}");
    }
}
