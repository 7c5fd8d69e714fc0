//! Gates whose sums (02, A7) must differ on generated lists, most of them gates that lose or keep
//! something unseen, of which demand 3 holds.

mod common;

use std::cell::RefCell;

use common::{differ, fault};
use reference::answers;
use reference::demand3::{alike, bounded, check, played, Gate};
use reference::events::{step, Answer, Event, Shown};
use reference::generate::lists;
use reference::ipi::Ipi;
use reference::page::admitted;
use reference::random::Random;
use reference::registers::{class, EOI, TPR};
use reference::set::VectorSet;
use reference::state::{Item, Module, Phase};
use reference::sums::Rules;
use reference::twin::twin;

#[test]
fn right_sums_meet() {
    assert!(!differ(step, Rules::RIGHT));
    assert_eq!(fault(step, Rules::RIGHT), None);
}

/// A step, and what a wrong gate does behind it; it sees the module before and after the step.
fn behind(
    m: &mut Module,
    event: &mut Event,
    wrong: fn(&Module, &mut Module, &Event, &Answer),
) -> Answer {
    let before = m.clone();
    let answer = step(m, event);
    wrong(&before, m, event, &answer);
    answer
}

thread_local! {
    static MERGED: RefCell<Vec<(u32, Item)>> = const { RefCell::new(vec![]) };
}

/// What a notice will merge with.
fn merging(m: &Module, event: &Event) -> Vec<(u32, Item)> {
    let Event::Notice { vcpu, page } = event else {
        return vec![];
    };
    if m.active(*vcpu).is_err() || page.len() < 256 {
        return vec![];
    }
    let record = m.record(*vcpu);
    let items = admitted(page, m.vmpl, &record.allowed).items();
    let met = items.into_iter().filter(|&item| record.has_pending(item));
    met.map(|item| (*vcpu, item)).collect()
}

/// Against 4.25: a request that merges is kept beside the first, and the item is presented twice.
fn merged_comes_again(m: &mut Module, event: &mut Event) -> Answer {
    MERGED.with_borrow_mut(|merged| merged.extend(merging(m, event)));
    behind(m, event, |_, m, event, answer| match (event, answer) {
        (Event::Start { .. }, _) => MERGED.set(vec![]),
        (Event::Entry { vcpu, .. }, Answer::Entry(Ok(Shown::Presented(item)))) => {
            let taken = |merged: &mut Vec<(u32, Item)>| {
                let at = merged.iter().position(|other| *other == (*vcpu, *item));
                at.map(|at| merged.remove(at)).is_some()
            };
            if MERGED.with_borrow_mut(taken) {
                m.record_mut(*vcpu).add_pending(*item);
            }
        }
        _ => {}
    })
}

/// Against 8.6, 8.11 and 8.17: what is presented stays pending.
fn presented_stays(m: &mut Module, event: &mut Event) -> Answer {
    behind(m, event, |_, m, event, answer| {
        if let (Event::Entry { vcpu, .. }, Answer::Entry(Ok(Shown::Presented(item)))) =
            (event, answer)
        {
            m.record_mut(*vcpu).add_pending(*item);
        }
    })
}

/// Against 8.13: an entry that answers with a window takes the vector away.
fn window_takes(m: &mut Module, event: &mut Event) -> Answer {
    behind(m, event, |_, m, event, answer| {
        if let (Event::Entry { vcpu, .. }, Answer::Entry(Ok(Shown::Window(v)))) = (event, answer) {
            m.record_mut(*vcpu).pending.take(*v);
        }
    })
}

/// Against 9.4: a vector that is returned onto a newer request is gone with it.
fn merged_return_is_lost(m: &mut Module, event: &mut Event) -> Answer {
    behind(m, event, |before, m, event, answer| {
        let (Event::NonDelivery { vcpu }, Answer::NonDelivery(Ok(_))) = (event, answer) else {
            return;
        };
        let was = before.record(*vcpu);
        if let Some(Item::Vector(v)) = was.flight.filter(|&item| was.has_pending(item)) {
            m.record_mut(*vcpu).pending.take(v);
        }
    })
}

/// Against 9.9: a machine check is not returned.
fn machine_check_not_returned(m: &mut Module, event: &mut Event) -> Answer {
    behind(m, event, |before, m, event, answer| {
        if let (Event::NonDelivery { vcpu }, Answer::NonDelivery(Ok(_))) = (event, answer) {
            m.record_mut(*vcpu).machine_check = before.record(*vcpu).machine_check;
        }
    })
}

/// A hand-back that leaves pending what `kept` gives of what was.
fn keeps_behind(
    m: &mut Module,
    event: &mut Event,
    kept: fn(&VectorSet, &VectorSet) -> VectorSet,
) -> Answer {
    let before = m.clone();
    let answer = step(m, event);
    if let (Event::HandBack { vcpu, .. }, Answer::HandBack(Ok(_))) = (event, answer) {
        let was = before.record(*vcpu);
        m.record_mut(*vcpu).pending = kept(&was.pending, &was.pending_level);
    }
    answer
}

/// Against 10.13: the level-sensitive vectors that the page does not name stay.
fn hand_back_keeps_the_unnamed(m: &mut Module, event: &mut Event) -> Answer {
    keeps_behind(m, event, |_, level| {
        let mut unnamed = level.clone();
        if let Some(v) = level.highest() {
            unnamed.take(v);
        }
        unnamed
    })
}

/// Against 10.13: the edge vectors stay.
fn hand_back_keeps_edge(m: &mut Module, event: &mut Event) -> Answer {
    keeps_behind(m, event, VectorSet::without)
}

/// Against 10.13: the NMI mark stays.
fn hand_back_keeps_the_nmi(m: &mut Module, event: &mut Event) -> Answer {
    behind(m, event, |before, m, event, answer| {
        if let (Event::HandBack { vcpu, .. }, Answer::HandBack(Ok(_))) = (event, answer) {
            m.record_mut(*vcpu).nmi = before.record(*vcpu).nmi;
        }
    })
}

/// Against 11.19: a hand-back that is refused for its page empties the vCPU all the same.
fn refused_hand_back_empties(m: &mut Module, event: &mut Event) -> Answer {
    behind(m, event, |_, m, event, answer| {
        if let (Event::HandBack { vcpu, .. }, Answer::HandBack(Err(2))) = (event, answer) {
            m.record_mut(*vcpu).pending = VectorSet::empty();
        }
    })
}

/// Against 5.3: what is in flight when the vCPU leaves is pending again, and so handed back.
fn leaving_returns(m: &mut Module, event: &mut Event) -> Answer {
    behind(m, event, |before, m, event, answer| {
        let (Event::Call { vcpu, call: 1, .. }, Answer::Call(Ok(_))) = (event, answer) else {
            return;
        };
        if let (Some(item), Phase::Leaving) = (before.record(*vcpu).flight, m.record(*vcpu).phase) {
            m.record_mut(*vcpu).add_pending(item);
        }
    })
}

/// Against 7.16: of the active targets the last one is named, but does not get the item.
fn ipi_misses_one(m: &mut Module, event: &mut Event) -> Answer {
    behind(m, event, |before, m, event, answer| {
        let (Some(_), Answer::Call(Ok(named))) = (Ipi::of(event), answer) else {
            return;
        };
        if let Some(last) = named.checked_ilog2() {
            let (kept, record) = (before.record(last), m.record_mut(last));
            (record.pending, record.nmi) = (kept.pending.clone(), kept.nmi);
        }
    })
}

/// Against 7.16: a vCPU that is leaving gets the item too.
fn ipi_reaches_the_leaving(m: &mut Module, event: &mut Event) -> Answer {
    behind(m, event, |_, m, event, answer| {
        let (Some(ipi), Answer::Call(Ok(_))) = (Ipi::of(event), answer) else {
            return;
        };
        for id in (0..m.n).filter(|&id| ipi.targets(id)) {
            if m.record(id).phase == Phase::Leaving {
                m.record_mut(id).add_pending(ipi.item);
            }
        }
    })
}

/// Against 4.42: an admitted machine check is answered as new and not kept.
fn notice_drops_the_machine_check(m: &mut Module, event: &mut Event) -> Answer {
    behind(m, event, |before, m, event, answer| {
        if let (Event::Notice { vcpu, .. }, Answer::Notice(Ok(_))) = (event, answer) {
            m.record_mut(*vcpu).machine_check = before.record(*vcpu).machine_check;
        }
    })
}

/// Against 4.20: the single vector comes in, allowed or not.
fn notice_asks_nobody(m: &mut Module, event: &mut Event) -> Answer {
    let read = event.clone();
    let answer = step(m, event);
    if let (Event::Notice { vcpu, page }, Answer::Notice(Ok(_))) = (read, answer) {
        let part = admitted(&page, m.vmpl, &VectorSet::all());
        if let Some(v) = part.level {
            m.record_mut(vcpu).pending.put(v);
        }
    }
    answer
}

/// The write of a register by an accepted call, and its value.
fn written(event: &Event, answer: &Answer, register: u32) -> Option<(u32, u64)> {
    match (event, answer) {
        (
            Event::Call {
                vcpu,
                call: 3,
                ecx,
                rdx,
            },
            Answer::Call(Ok(_)),
        ) if *ecx == register => Some((*vcpu, *rdx)),
        _ => None,
    }
}

/// Against 6.25: an EOI clears the pending bit of its vector too.
fn eoi_clears_pending(m: &mut Module, event: &mut Event) -> Answer {
    behind(m, event, |before, m, event, answer| {
        if let Some((vcpu, _)) = written(event, answer, EOI) {
            if let Some(v) = before.record(vcpu).service.highest() {
                m.record_mut(vcpu).pending.take(v);
            }
        }
    })
}

/// Against 6.25: a level-sensitive vector comes again with its EOI.
fn eoi_brings_it_again(m: &mut Module, event: &mut Event) -> Answer {
    behind(m, event, |before, m, event, answer| {
        if let Some((vcpu, _)) = written(event, answer, EOI) {
            let was = before.record(vcpu);
            let ended = was.service.highest();
            if let Some(v) = ended.filter(|&v| was.serving_level.has(v)) {
                m.record_mut(vcpu).pending.put(v);
            }
        }
    })
}

/// Against 6.22: a TPR write forgets the vectors that it holds back.
fn tpr_forgets(m: &mut Module, event: &mut Event) -> Answer {
    behind(m, event, |_, m, event, answer| {
        if let Some((vcpu, value)) = written(event, answer, TPR) {
            let held = (0..256).filter(|&v| class(v) <= class(value as usize));
            held.for_each(|v| m.record_mut(vcpu).pending.take(v));
        }
    })
}

/// Against 5.22: a read of an IRR register clears its 32 vectors.
fn read_clears(m: &mut Module, event: &mut Event) -> Answer {
    behind(m, event, |_, m, event, answer| {
        let (
            Event::Call {
                vcpu, call: 2, ecx, ..
            },
            Answer::Call(Ok(_)),
        ) = (event, answer)
        else {
            return;
        };
        if (0x820..0x828).contains(ecx) {
            let first = 32 * (*ecx as usize - 0x820);
            (first..first + 32).for_each(|v| m.record_mut(*vcpu).pending.take(v));
        }
    })
}

/// Against 5.19: a list of values that takes a vector out takes it away where it is pending.
fn list_takes_pending(m: &mut Module, event: &mut Event) -> Answer {
    behind(m, event, |_, m, event, answer| {
        if let (Event::Allow { vcpu, values, .. }, Answer::Allow(Ok(_))) = (event, answer) {
            let out = values.iter().filter(|&&ecx| (31..256).contains(&ecx));
            out.for_each(|&ecx| m.record_mut(*vcpu).pending.take(ecx as usize));
        }
    })
}

#[test]
fn sums_of_wrong_gates_differ() {
    for (name, gate) in [
        ("merged_comes_again", merged_comes_again as Gate),
        ("presented_stays", presented_stays),
        ("window_takes", window_takes),
        ("merged_return_is_lost", merged_return_is_lost),
        ("machine_check_not_returned", machine_check_not_returned),
        ("hand_back_keeps_the_unnamed", hand_back_keeps_the_unnamed),
        ("hand_back_keeps_edge", hand_back_keeps_edge),
        ("hand_back_keeps_the_nmi", hand_back_keeps_the_nmi),
        ("refused_hand_back_empties", refused_hand_back_empties),
        ("leaving_returns", leaving_returns),
        ("ipi_misses_one", ipi_misses_one),
        ("ipi_reaches_the_leaving", ipi_reaches_the_leaving),
        (
            "notice_drops_the_machine_check",
            notice_drops_the_machine_check,
        ),
        ("notice_asks_nobody", notice_asks_nobody),
        ("eoi_clears_pending", eoi_clears_pending),
        ("eoi_brings_it_again", eoi_brings_it_again),
        ("tpr_forgets", tpr_forgets),
        ("read_clears", read_clears),
        ("list_takes_pending", list_takes_pending),
    ] {
        assert!(differ(gate, Rules::RIGHT), "{name}");
    }
}

/// Demand 3 and what `answers` asks, without the sums.
fn demand_3_holds(gate: Gate) -> bool {
    let mut random = Random::new(1);
    lists(6, 10_000).iter().all(|list| {
        let (second, _) = twin(&mut random, list);
        let (one, two) = (played(list, gate), played(&second, gate));
        alike(&one, &two).is_ok()
            && bounded(list, &one).is_ok()
            && answers::hold(list, gate).is_ok()
    })
}

/// Demand 3 holds of these: nothing is presented too often, and twins are alike. Only the sums tell
/// that something was lost, or is kept by a vCPU that has left.
#[test]
fn demand_3_does_not_find_what_is_lost() {
    for (name, gate) in [
        ("window_takes", window_takes as Gate),
        ("merged_return_is_lost", merged_return_is_lost),
        ("machine_check_not_returned", machine_check_not_returned),
        ("hand_back_keeps_the_unnamed", hand_back_keeps_the_unnamed),
        ("hand_back_keeps_edge", hand_back_keeps_edge),
        ("hand_back_keeps_the_nmi", hand_back_keeps_the_nmi),
        ("refused_hand_back_empties", refused_hand_back_empties),
        ("eoi_clears_pending", eoi_clears_pending),
        ("tpr_forgets", tpr_forgets),
        ("read_clears", read_clears),
        ("list_takes_pending", list_takes_pending),
    ] {
        assert!(demand_3_holds(gate), "{name}");
        let verdict = check(6, 10_000, gate).unwrap_err();
        assert!(verdict.contains("the sums of"), "{name}: {verdict}");
    }
}
