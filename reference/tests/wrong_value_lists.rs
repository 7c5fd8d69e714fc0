//! Gates that are wrong about lists of values (02, A5): a comparison of answers and second lists must
//! find them, and the check of demand 3 those that leave other permissions.

mod common;

use common::answers_differ;
use reference::calls::allow_rule;
use reference::codes::{Code, BAD_LIST, BAD_VALUE};
use reference::demand3::{check, Gate};
use reference::events::{allow, step, Answer, Event};
use reference::state::Module;

type Allow = fn(&mut Module, u32, &[u32], &mut [u32]) -> Result<u32, Code>;

/// A gate that is wrong about lists of values and right about all else.
fn on_lists(m: &mut Module, event: &mut Event, wrong: Allow) -> Answer {
    match event {
        Event::Allow {
            vcpu,
            values,
            codes,
        } => Answer::Allow(wrong(m, *vcpu, values, codes)),
        _ => step(m, event),
    }
}

/// The first refused value ends the list.
fn stops_at_a_refused_value(m: &mut Module, event: &mut Event) -> Answer {
    on_lists(m, event, |m, vcpu, values, codes| {
        let end = values.iter().position(|&ecx| !allow_rule(ecx));
        let end = end.map_or(values.len(), |at| at + 1);
        if codes.len() < values.len() || values.len() > 256 {
            return allow(m, vcpu, values, codes);
        }
        allow(m, vcpu, &values[..end], codes)
    })
}

/// One refused value refuses them all.
fn all_or_none(m: &mut Module, event: &mut Event) -> Answer {
    on_lists(m, event, |m, vcpu, values, codes| {
        let mut tried = m.clone();
        let answer = allow(&mut tried, vcpu, values, codes);
        if values.iter().all(|&ecx| allow_rule(ecx)) {
            *m = tried;
        }
        answer
    })
}

/// The last value first.
fn backwards(m: &mut Module, event: &mut Event) -> Answer {
    on_lists(m, event, |m, vcpu, values, codes| {
        let turned: Vec<u32> = values.iter().rev().copied().collect();
        let answer = allow(m, vcpu, &turned, codes);
        if answer.is_ok() {
            codes[..values.len()].reverse();
        }
        answer
    })
}

/// Places past the count become 0.
fn clears_past_the_count(m: &mut Module, event: &mut Event) -> Answer {
    on_lists(m, event, |m, vcpu, values, codes| {
        let answer = allow(m, vcpu, values, codes);
        if answer.is_ok() {
            codes[values.len()..].fill(0);
        }
        answer
    })
}

/// The code of an accepted value is not written: what stood there stays.
fn writes_refusals_alone(m: &mut Module, event: &mut Event) -> Answer {
    on_lists(m, event, |m, vcpu, values, codes| {
        let before = codes.to_vec();
        let answer = allow(m, vcpu, values, codes);
        for (code, before) in codes.iter_mut().zip(before) {
            *code = if *code == 0 { before } else { *code };
        }
        answer
    })
}

/// The answer is how many values were refused.
fn answers_a_number(m: &mut Module, event: &mut Event) -> Answer {
    on_lists(m, event, |m, vcpu, values, codes| {
        let refused = values.iter().filter(|&&ecx| !allow_rule(ecx));
        let answer = allow(m, vcpu, values, codes);
        answer.map(|_| refused.count() as u32)
    })
}

/// Every accepted list forgets what is in flight, without an accepted value too.
fn any_list_forgets(m: &mut Module, event: &mut Event) -> Answer {
    on_lists(m, event, |m, vcpu, values, codes| {
        let answer = allow(m, vcpu, values, codes);
        if answer.is_ok() {
            m.record_mut(vcpu).flight = None;
        }
        answer
    })
}

/// A list of refused values forgets what is in flight.
fn refused_values_forget(m: &mut Module, event: &mut Event) -> Answer {
    on_lists(m, event, |m, vcpu, values, codes| {
        let answer = allow(m, vcpu, values, codes);
        if answer.is_ok() && !values.is_empty() {
            m.record_mut(vcpu).flight = None;
        }
        answer
    })
}

/// A list of no value forgets what is in flight.
fn no_value_forgets(m: &mut Module, event: &mut Event) -> Answer {
    on_lists(m, event, |m, vcpu, values, codes| {
        let answer = allow(m, vcpu, values, codes);
        if answer.is_ok() && values.is_empty() {
            m.record_mut(vcpu).flight = None;
        }
        answer
    })
}

/// No list forgets what is in flight.
fn no_list_forgets(m: &mut Module, event: &mut Event) -> Answer {
    on_lists(m, event, |m, vcpu, values, codes| {
        let before = m.clone();
        let answer = allow(m, vcpu, values, codes);
        if answer.is_ok() {
            m.record_mut(vcpu).flight = before.record(vcpu).flight;
        }
        answer
    })
}

/// What is in flight is kept where any value is refused.
fn a_refused_value_keeps(m: &mut Module, event: &mut Event) -> Answer {
    on_lists(m, event, |m, vcpu, values, codes| {
        let before = m.clone();
        let answer = allow(m, vcpu, values, codes);
        if answer.is_ok() && values.iter().any(|&ecx| !allow_rule(ecx)) {
            m.record_mut(vcpu).flight = before.record(vcpu).flight;
        }
        answer
    })
}

/// 257 values are taken.
fn takes_257(m: &mut Module, event: &mut Event) -> Answer {
    on_lists(m, event, |m, vcpu, values, codes| {
        if values.len() != 257 || codes.len() < 257 {
            return allow(m, vcpu, values, codes);
        }
        allow(m, vcpu, &values[..256], codes)?;
        allow(m, vcpu, &values[256..], &mut codes[256..])
    })
}

/// 256 values are refused.
fn refuses_256(m: &mut Module, event: &mut Event) -> Answer {
    on_lists(m, event, |m, vcpu, values, codes| {
        m.active(vcpu)?;
        if values.len() == 256 {
            return Err(BAD_LIST);
        }
        allow(m, vcpu, values, codes)
    })
}

/// A second list that is shorter by one takes what it has room for.
fn takes_one_place_less(m: &mut Module, event: &mut Event) -> Answer {
    on_lists(m, event, |m, vcpu, values, codes| {
        if codes.len() + 1 != values.len() {
            return allow(m, vcpu, values, codes);
        }
        allow(m, vcpu, &values[..codes.len()], codes)
    })
}

/// More entries than values are refused.
fn wants_equal_lengths(m: &mut Module, event: &mut Event) -> Answer {
    on_lists(m, event, |m, vcpu, values, codes| {
        m.active(vcpu)?;
        if codes.len() > values.len() {
            return Err(BAD_LIST);
        }
        allow(m, vcpu, values, codes)
    })
}

/// Code 6 before the phase.
fn lists_before_the_phase(m: &mut Module, event: &mut Event) -> Answer {
    on_lists(m, event, |m, vcpu, values, codes| {
        m.known(vcpu)?;
        if values.len() > 256 || codes.len() < values.len() {
            return Err(BAD_LIST);
        }
        allow(m, vcpu, values, codes)
    })
}

/// Code 6 before code 1.
fn lists_before_the_vcpu(m: &mut Module, event: &mut Event) -> Answer {
    on_lists(m, event, |m, vcpu, values, codes| {
        if m.known(vcpu).is_err() && codes.len() < values.len() {
            return Err(BAD_LIST);
        }
        allow(m, vcpu, values, codes)
    })
}

/// A refused list leaves its codes behind, as far as there is room.
fn refused_list_writes_codes(m: &mut Module, event: &mut Event) -> Answer {
    on_lists(m, event, |m, vcpu, values, codes| {
        let answer = allow(m, vcpu, values, codes);
        if answer == Err(BAD_LIST) {
            for (&ecx, code) in values.iter().zip(codes) {
                *code = if allow_rule(ecx) { 0 } else { BAD_VALUE };
            }
        }
        answer
    })
}

/// A list that is refused for its second list is carried out all the same.
fn refused_list_is_done(m: &mut Module, event: &mut Event) -> Answer {
    on_lists(m, event, |m, vcpu, values, codes| {
        let answer = allow(m, vcpu, values, codes);
        if answer == Err(BAD_LIST) && values.len() <= 256 {
            allow(m, vcpu, values, &mut vec![0; values.len()])?;
        }
        answer
    })
}

/// What is taken out of the set is no longer pending.
fn list_takes_pending(m: &mut Module, event: &mut Event) -> Answer {
    on_lists(m, event, |m, vcpu, values, codes| {
        let answer = allow(m, vcpu, values, codes);
        if answer.is_ok() {
            for &ecx in values.iter().filter(|&&ecx| (31..256).contains(&ecx)) {
                m.record_mut(vcpu).pending.take(ecx as usize);
                m.record_mut(vcpu).pending_level.take(ecx as usize);
            }
        }
        answer
    })
}

/// Each of these comes to show in an answer or a second list (5.26 to 5.32).
#[test]
fn wrong_lists_differ() {
    for (name, gate) in [
        ("stops_at_a_refused_value", stops_at_a_refused_value as Gate),
        ("all_or_none", all_or_none),
        ("backwards", backwards),
        ("clears_past_the_count", clears_past_the_count),
        ("writes_refusals_alone", writes_refusals_alone),
        ("answers_a_number", answers_a_number),
        ("any_list_forgets", any_list_forgets),
        ("refused_values_forget", refused_values_forget),
        ("no_value_forgets", no_value_forgets),
        ("no_list_forgets", no_list_forgets),
        ("a_refused_value_keeps", a_refused_value_keeps),
        ("takes_257", takes_257),
        ("refuses_256", refuses_256),
        ("takes_one_place_less", takes_one_place_less),
        ("wants_equal_lengths", wants_equal_lengths),
        ("lists_before_the_phase", lists_before_the_phase),
        ("lists_before_the_vcpu", lists_before_the_vcpu),
        ("refused_list_writes_codes", refused_list_writes_codes),
        ("refused_list_is_done", refused_list_is_done),
        ("list_takes_pending", list_takes_pending),
    ] {
        assert!(answers_differ(gate), "{name}");
    }
}

/// Where they leave other permissions than the book has, demand 3 does not hold (13.21, 13.22, 13.26).
#[test]
fn wrong_permissions_break_demand_3() {
    for (name, gate) in [
        ("stops_at_a_refused_value", stops_at_a_refused_value as Gate),
        ("all_or_none", all_or_none),
        ("backwards", backwards),
        ("takes_257", takes_257),
        ("takes_one_place_less", takes_one_place_less),
        ("refused_list_is_done", refused_list_is_done),
    ] {
        assert!(check(1, 20_000, gate).is_err(), "{name}");
    }
}
