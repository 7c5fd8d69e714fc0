//! Generated traces, and that the check of demand 3 finds wrong gates.

mod common;

use std::collections::BTreeSet;

use common::answers_differ;
use reference::coverage::Coverage;
use reference::demand3::{check, Gate};
use reference::events::{step, Admission, Answer, Event, Shown};
use reference::generate::{generate, lists};
use reference::ipi::Ipi;
use reference::machine_checks;
use reference::merging::{Merging, REQUESTS};
use reference::outcomes;
use reference::page::{admitted, announces, bit, clear_bit, set_bit};
use reference::play::play_text;
use reference::questions;
use reference::set::VectorSet;
use reference::state::{items, Item, Module, Phase, Record};
use reference::trace::{read, Line};
use reference::value_lists;

const PRESENTED_MC: Shown = Shown::Presented(Item::MachineCheck);

fn generated(seed: u64, count: usize) -> Vec<u8> {
    let mut trace = Vec::new();
    generate(seed, count, &mut trace).unwrap();
    trace
}

#[test]
fn a_seed_gives_one_trace() {
    assert_eq!(generated(5, 2000), generated(5, 2000));
    assert_ne!(generated(5, 2000), generated(6, 2000));
}

/// The trace reads back as the events that were generated, however they were spelt.
#[test]
fn a_trace_holds_its_events() {
    let trace = generated(8, 5000);
    let lines = trace.split(|&b| b == b'\n');
    let events = lines.filter_map(|line| match read(line) {
        Line::Event(event) => Some(event),
        _ => None,
    });
    let expected: Vec<Event> = lists(8, 5000).into_iter().flatten().collect();
    assert_eq!(events.collect::<Vec<Event>>(), expected);
}

#[test]
fn everything_occurs() {
    let output: String = (0..4)
        .map(|seed| play_text(&generated(seed, 15_000)))
        .collect();
    let coverage = Coverage::of(output.as_bytes()).unwrap();
    assert!(coverage.complete(), "{}", coverage.report());
}

/// Requests meet their item pending in every way, and often; so do questions (8.21 to 8.23) what they hang on;
/// lists of values are of every kind (5.26), and so is what is returned and handed back (02, A7).
#[test]
fn merging_occurs() {
    let rarer = [&value_lists::KINDS[..], &outcomes::KINDS].concat();
    let mut rarer: Vec<(&str, u64)> = rarer.into_iter().map(|kind| (kind, 0)).collect();
    for seed in 0..4 {
        let trace = generated(seed, 15_000);
        let merging = Merging::of(&trace[..]).unwrap();
        let kinds = [&REQUESTS[..], &machine_checks::KINDS, &questions::KINDS].concat();
        assert!(merging.fewest(&kinds) >= 10, "{}", merging.report());
        for (kind, count) in &mut rarer {
            *count += merging.count(kind);
        }
        let coverage = Coverage::of(play_text(&trace).as_bytes()).unwrap();
        for kind in ["notice ok, merged", "notice ok, new and merged"] {
            assert!(coverage.count(kind) >= 100, "{}", coverage.report());
        }
    }
    let often = rarer.iter().all(|(_, count)| *count >= 15);
    assert!(often, "{rarer:?}");
}

/// What a list leaves, said apart from call 4: of the accepted values for a vector the last one
/// decides, and one accepted value is enough to forget what is in flight (5.32).
#[test]
fn what_a_list_leaves() {
    let mut m = Module::refused();
    let mut played = 0;
    for mut event in lists(9, 20_000).into_iter().flatten() {
        let before = m.clone();
        let written = event.clone();
        let answer = step(&mut m, &mut event);
        let (Event::Allow { vcpu, values, .. }, Answer::Allow(Ok(0))) = (written, answer) else {
            continue;
        };
        let accepted = |ecx: u32| {
            let v = ecx & 0xFF;
            ecx & !0x1FF == 0 && (v == 2 || v == 18 || v > 30)
        };
        let mut expected = before.clone();
        let record = expected.record_mut(vcpu);
        for v in 0..256 {
            let mut of_v = values.iter().rev().filter(|&&ecx| ecx & 0xFF == v);
            match of_v.find(|&&ecx| accepted(ecx)) {
                Some(ecx) if ecx & 0x100 != 0 => record.allowed.put(v as usize),
                Some(_) => record.allowed.take(v as usize),
                None => {}
            }
        }
        if values.iter().any(|&ecx| accepted(ecx)) {
            record.flight = None;
        }
        assert_eq!(m, expected);
        played += 1;
    }
    assert!(played > 300);
}

#[test]
fn the_corners_occur() {
    let (mut sizes, mut calls, mut registers) = (BTreeSet::new(), BTreeSet::new(), BTreeSet::new());
    for event in lists(3, 150_000).into_iter().flatten() {
        match event {
            Event::Start { n, vmpl } => {
                sizes.extend([(0, n), (1, vmpl)]);
            }
            Event::Call { call, ecx, .. } => {
                calls.insert(call);
                registers.insert(if call == 2 || call == 3 { ecx } else { 0x800 });
            }
            _ => {}
        }
    }
    assert!([0, 1, 2, 18, 32, 33]
        .iter()
        .all(|&n| sizes.contains(&(0, n))));
    assert!((0..=4).all(|vmpl| sizes.contains(&(1, vmpl))));
    assert!((0..=5).all(|call| calls.contains(&call)));
    assert!((0x7FF..=0x900).all(|register| registers.contains(&register)));
}

/// 13.20 to 13.27
#[test]
fn demand_3_holds() {
    for seed in 0..5 {
        check(seed, 10_000, step).unwrap();
    }
}

fn fails(gate: Gate) -> bool {
    check(1, 20_000, gate).is_err()
}

/// Against 4.19: the single vector comes in unasked.
fn untested_vector(m: &mut Module, event: &mut Event) -> Answer {
    let sent = match event {
        Event::Notice { vcpu, page } if *vcpu < m.n && page.len() >= 256 => {
            let start = 64 * m.vmpl as usize;
            let sent = announces(page, m.vmpl) && page[start + 1] == 0 && page[start] >= 31;
            sent.then_some((*vcpu, page[start] as usize))
        }
        _ => None,
    };
    let answer = step(m, event);
    if let (Some((vcpu, v)), Answer::Notice(Ok(_))) = (sent, answer) {
        m.record_mut(vcpu).pending.put(v);
    }
    answer
}

/// Against 4.29 and 4.37: a byte that no rule reads is counted.
fn invented_number(m: &mut Module, event: &mut Event) -> Answer {
    let extra = match event {
        Event::Notice { page, .. } if !page.is_empty() => u32::from(page[0] % 2),
        _ => 0,
    };
    recounted(step(m, event), |a| Admission {
        merged: a.merged + extra,
        ..a
    })
}

fn recounted(answer: Answer, change: impl Fn(Admission) -> Admission) -> Answer {
    match answer {
        Answer::Notice(Ok(admission)) => Answer::Notice(Ok(change(admission))),
        answer => answer,
    }
}

/// Against 4.37: every admitted item is called new, as before request A2.
fn all_items_new(m: &mut Module, event: &mut Event) -> Answer {
    recounted(step(m, event), |a| Admission {
        new: a.new + a.merged,
        merged: 0,
    })
}

/// Against 4.37: what was pending is not counted.
fn loses_merged(m: &mut Module, event: &mut Event) -> Answer {
    recounted(step(m, event), |a| Admission { merged: 0, ..a })
}

/// Against 4.29: the item that is in flight is taken for one that was pending.
fn in_flight_is_pending(m: &mut Module, event: &mut Event) -> Answer {
    let before = m.clone();
    let answer = step(m, event);
    let Event::Notice { vcpu, .. } = *event else {
        return answer;
    };
    let met =
        |item: Item| !before.record(vcpu).has_pending(item) && m.record(vcpu).has_pending(item);
    recounted(answer, |a| match before.record(vcpu).flight {
        Some(item) if met(item) => Admission {
            new: a.new - 1,
            merged: a.merged + 1,
        },
        _ => a,
    })
}

/// Against 4.37: an edge vector is called new where it was pending as level-sensitive.
fn kinds_kept_apart(m: &mut Module, event: &mut Event) -> Answer {
    let apart = match event {
        Event::Notice { vcpu, page } if m.active(*vcpu).is_ok() && page.len() >= 256 => {
            let record = m.record(*vcpu);
            let edge = admitted(page, m.vmpl, &record.allowed).edge;
            let level = |v: &usize| record.pending_level.has(*v);
            edge.members().into_iter().filter(level).count() as u32
        }
        _ => 0,
    };
    recounted(step(m, event), |a| Admission {
        new: a.new + apart,
        merged: a.merged - apart,
    })
}

/// Against 7.20: an IPI names whom it reached, as before request A2.
fn names_every_target(m: &mut Module, event: &mut Event) -> Answer {
    let answer = step(m, event);
    match (Ipi::of(event), answer) {
        (Some(ipi), Answer::Call(Ok(_))) => {
            let reached = (0..m.n).filter(|&id| ipi.targets(id) && m.active(id).is_ok());
            Answer::Call(Ok(reached.map(|id| 2u64.pow(id)).sum()))
        }
        _ => answer,
    }
}

/// Against 7.16: of the targets without the item only the first gets it, and is named.
fn one_target_only(m: &mut Module, event: &mut Event) -> Answer {
    let before = m.clone();
    let answer = step(m, event);
    let (Some(ipi), Answer::Call(Ok(named))) = (Ipi::of(event), answer) else {
        return answer;
    };
    let lowest = named & named.wrapping_neg();
    for id in (0..m.n).filter(|id| (named - lowest) >> id & 1 == 1) {
        let kept = before.record(id);
        let record = m.record_mut(id);
        (record.pending, record.nmi) = (kept.pending.clone(), kept.nmi);
        assert!(!record.has_pending(ipi.item));
    }
    Answer::Call(Ok(lowest))
}

/// Against 8.11: a presented vector stays pending.
fn presented_twice(m: &mut Module, event: &mut Event) -> Answer {
    let answer = step(m, event);
    if let (Event::Entry { vcpu, .. }, Answer::Entry(Ok(Shown::Presented(Item::Vector(v))))) =
        (event, answer)
    {
        m.record_mut(*vcpu).pending.put(v);
    }
    answer
}

/// Against 11.19: a refused notice leaves a trace in the module.
fn refused_notice_remembered(m: &mut Module, event: &mut Event) -> Answer {
    let answer = step(m, event);
    if let (Event::Notice { vcpu, page }, Answer::Notice(Err(2))) = (event, answer) {
        m.record_mut(*vcpu).tpr = page.first().copied().unwrap_or(0);
    }
    answer
}

/// Against 10.13: a leaving vCPU loses its permissions before its hand-back.
fn forgets_early(m: &mut Module, event: &mut Event) -> Answer {
    let answer = step(m, event);
    for record in m.records.iter_mut().filter(|r| r.phase == Phase::Leaving) {
        record.allowed = VectorSet::empty();
    }
    answer
}

/// Against 4.40: bit 9 brings the machine check in, whatever is allowed.
fn unasked_machine_check(m: &mut Module, event: &mut Event) -> Answer {
    let sent = match event {
        Event::Notice { vcpu, page } if m.active(*vcpu).is_ok() && page.len() >= 256 => {
            let start = 64 * m.vmpl as usize;
            let sent = announces(page, m.vmpl) && bit(page, start, 9);
            (sent && !m.record(*vcpu).machine_check).then_some(*vcpu)
        }
        _ => None,
    };
    let answer = step(m, event);
    match sent {
        Some(vcpu) if !m.record(vcpu).machine_check => {
            m.record_mut(vcpu).machine_check = true;
            recounted(answer, |a| Admission {
                new: a.new + 1,
                ..a
            })
        }
        _ => answer,
    }
}

/// Against 8.17: presenting the machine check leaves its mark.
fn machine_check_twice(m: &mut Module, event: &mut Event) -> Answer {
    let answer = step(m, event);
    if let (Event::Entry { vcpu, .. }, Answer::Entry(Ok(PRESENTED_MC))) = (event, answer) {
        m.record_mut(*vcpu).machine_check = true;
    }
    answer
}

/// Against 4.42: an admitted machine check is counted and not kept where the NMI comes with it.
fn machine_check_dropped(m: &mut Module, event: &mut Event) -> Answer {
    let before = m.clone();
    let answer = step(m, event);
    if let (Event::Notice { vcpu, .. }, Answer::Notice(Ok(_))) = (event, answer) {
        let (was, now) = (before.record(*vcpu), m.record_mut(*vcpu));
        if now.nmi && !was.nmi {
            now.machine_check = was.machine_check;
        }
    }
    answer
}

/// Against 4.37: a machine check counts as new where its mark was set.
fn machine_check_always_new(m: &mut Module, event: &mut Event) -> Answer {
    let merged = match event {
        Event::Notice { vcpu, page } if m.active(*vcpu).is_ok() && page.len() >= 256 => {
            let record = m.record(*vcpu);
            record.machine_check && admitted(page, m.vmpl, &record.allowed).machine_check
        }
        _ => false,
    };
    recounted(step(m, event), |a| Admission {
        new: a.new + u32::from(merged),
        merged: a.merged - u32::from(merged),
    })
}

/// The bound is of machine checks as well.
#[test]
fn a_machine_check_presented_twice_is_found() {
    let verdict = check(1, 20_000, machine_check_twice).unwrap_err();
    let fault = "MachineCheck presented too often";
    assert!(verdict.contains(fault), "{verdict}");
}

#[test]
fn wrong_gates_are_found() {
    assert!(fails(untested_vector));
    assert!(fails(unasked_machine_check));
    assert!(fails(returned_as_nmi));
    assert!(fails(invented_number));
    assert!(fails(presented_twice));
    assert!(fails(refused_notice_remembered));
    assert!(fails(forgets_early));
}

/// Isolation and the bound hold of these too: only what answers say of pending items finds them.
#[test]
fn wrong_numbers_are_found() {
    for (gate, fault) in [
        (all_items_new as Gate, "the first number"),
        (in_flight_is_pending, "the first number"),
        (kinds_kept_apart, "the first number"),
        (machine_check_dropped, "the first number"),
        (machine_check_always_new, "the first number"),
        (loses_merged, "the second number"),
        (names_every_target, "does not name"),
        (one_target_only, "leaves an active target"),
    ] {
        let verdict = check(1, 20_000, gate).unwrap_err();
        assert!(verdict.contains(fault), "{verdict}");
    }
}

/// 10.13, 13.10, 13.11: how many hand-backs had what was pending read back and left nothing pending,
/// and how many had not.
fn read_back(gate: Gate) -> (usize, usize) {
    let mut m = Module::refused();
    let (mut good, mut bad) = (0, 0);
    for mut event in lists(4, 60_000).into_iter().flatten() {
        let before = m.clone();
        let answer = gate(&mut m, &mut event);
        let (Event::HandBack { vcpu, page, .. }, Answer::HandBack(Ok(_))) = (&mut event, answer)
        else {
            continue;
        };
        set_bit(page, 2, 7 + m.vmpl as usize);
        let part = admitted(page, m.vmpl, &VectorSet::all());
        let record = before.record(*vcpu);
        let same = part.nmi == record.nmi
            && part.machine_check == record.machine_check
            && part.level == record.pending_level.highest()
            && part.edge == record.pending.without(&record.pending_level);
        if same && items().all(|item| !m.record(*vcpu).has_pending(item)) {
            good += 1;
        } else {
            bad += 1;
        }
    }
    (good, bad)
}

#[test]
fn a_hand_back_reads_back() {
    let (good, bad) = read_back(step);
    assert!(good > 50 && bad == 0, "{good} {bad}");
    for gate in [hands_back_no_bit_9, keeps_the_mark_handed_back] {
        assert!(read_back(gate).1 > 10);
    }
}

/// Against 8.17: the NMI goes first where nothing holds it back.
fn nmi_first(m: &mut Module, event: &mut Event) -> Answer {
    held_back(m, event, |r, _, shadow, blocked| {
        r.nmi && !shadow && !blocked
    })
}

/// Against 8.17: the machine check waits for the end of the shadow.
fn held_by_shadow(m: &mut Module, event: &mut Event) -> Answer {
    held_back(m, event, |_, _, shadow, _| shadow)
}

/// Against 8.17: the machine check waits as the NMI does.
fn held_by_blocking(m: &mut Module, event: &mut Event) -> Answer {
    held_back(m, event, |_, _, _, blocked| blocked)
}

/// Against 8.17: the machine check waits for IF.
fn held_by_if(m: &mut Module, event: &mut Event) -> Answer {
    held_back(m, event, |_, if_set, _, _| !if_set)
}

/// Against 8.17: the machine check waits for the EOI of a vector in service.
fn held_by_service(m: &mut Module, event: &mut Event) -> Answer {
    held_back(m, event, |r, _, _, _| !r.service.is_empty())
}

/// Against 8.16: the machine check is presented only while the guest allows 18.
fn asks_the_allowed_set(m: &mut Module, event: &mut Event) -> Answer {
    held_back(m, event, |r, _, _, _| !r.allowed.has(18))
}

/// An entry that passes over the machine check where `held` says so.
fn held_back(
    m: &mut Module,
    event: &mut Event,
    held: fn(&Record, bool, bool, bool) -> bool,
) -> Answer {
    let Event::Entry {
        vcpu,
        if_set,
        shadow,
        blocked,
    } = *event
    else {
        return step(m, event);
    };
    let marked = m.active(vcpu).is_ok() && m.record(vcpu).machine_check;
    if !marked || !held(m.record(vcpu), if_set, shadow, blocked) {
        return step(m, event);
    }
    m.record_mut(vcpu).machine_check = false;
    let answer = step(m, event);
    m.record_mut(vcpu).machine_check = true;
    answer
}

/// Against 8.17: presenting the machine check takes the NMI with it.
fn takes_the_nmi_too(m: &mut Module, event: &mut Event) -> Answer {
    let answer = step(m, event);
    if let (Event::Entry { vcpu, .. }, Answer::Entry(Ok(PRESENTED_MC))) = (event, answer) {
        m.record_mut(*vcpu).nmi = false;
    }
    answer
}

/// Against 9.9: a returned machine check is gone.
fn lost_by_non_delivery(m: &mut Module, event: &mut Event) -> Answer {
    let before = m.clone();
    let answer = step(m, event);
    if let (Event::NonDelivery { vcpu }, Answer::NonDelivery(Ok(_))) = (event, answer) {
        m.record_mut(*vcpu).machine_check = before.record(*vcpu).machine_check;
    }
    answer
}

/// Against 9.9: a returned machine check comes again as an NMI.
fn returned_as_nmi(m: &mut Module, event: &mut Event) -> Answer {
    if let Event::NonDelivery { vcpu } = *event {
        if m.active(vcpu).is_ok() && m.record(vcpu).flight == Some(Item::MachineCheck) {
            m.record_mut(vcpu).flight = Some(Item::Nmi);
        }
    }
    step(m, event)
}

/// Against 10.17: bit 9 is not written.
fn hands_back_no_bit_9(m: &mut Module, event: &mut Event) -> Answer {
    let answer = step(m, event);
    if let (Event::HandBack { page, .. }, Answer::HandBack(Ok(_))) = (event, answer) {
        clear_bit(page, 64 * m.vmpl as usize, 9);
    }
    answer
}

/// Against 10.13: the mark outlives the hand-back.
fn keeps_the_mark_handed_back(m: &mut Module, event: &mut Event) -> Answer {
    let before = m.clone();
    let answer = step(m, event);
    if let (Event::HandBack { vcpu, .. }, Answer::HandBack(Ok(_))) = (event, answer) {
        m.record_mut(*vcpu).machine_check = before.record(*vcpu).machine_check;
    }
    answer
}

/// Against 5.19: taking 18 out takes the pending machine check away.
fn forgets_with_18(m: &mut Module, event: &mut Event) -> Answer {
    let answer = step(m, event);
    if let (
        Event::Call {
            vcpu,
            call: 4,
            ecx: 18,
            ..
        },
        Answer::Call(Ok(_)),
    ) = (event, answer)
    {
        m.record_mut(*vcpu).machine_check = false;
    }
    answer
}

/// Against 4.41: 18 as the single vector stands for the machine check where it is allowed.
fn single_18_is_one(m: &mut Module, event: &mut Event) -> Answer {
    asks_too(m, event, |page, start| page[start] == 18)
}

/// Against 4.41: bit 18 under bit 14 stands for the machine check where it is allowed.
fn mark_18_is_one(m: &mut Module, event: &mut Event) -> Answer {
    asks_too(m, event, |page, start| {
        bit(page, start, 14) && bit(page, start, 18)
    })
}

/// A notice that reads bit 9 as set where `more` says so.
fn asks_too(m: &mut Module, event: &mut Event, more: fn(&[u8], usize) -> bool) -> Answer {
    if let Event::Notice { vcpu, page } = event {
        let start = 64 * m.vmpl as usize;
        let accepted = m.active(*vcpu).is_ok() && page.len() >= 256;
        if accepted && announces(page, m.vmpl) && more(page, start) {
            set_bit(page, start, 9);
        }
    }
    step(m, event)
}

/// Neither demand 3 nor a read-back finds all of these: what finds them is a comparison.
#[test]
fn wrong_machine_checks_differ() {
    assert!(!answers_differ(step));
    for (name, gate) in [
        ("nmi_first", nmi_first as Gate),
        ("held_by_shadow", held_by_shadow),
        ("held_by_blocking", held_by_blocking),
        ("held_by_if", held_by_if),
        ("held_by_service", held_by_service),
        ("asks_the_allowed_set", asks_the_allowed_set),
        ("takes_the_nmi_too", takes_the_nmi_too),
        ("lost_by_non_delivery", lost_by_non_delivery),
        ("returned_as_nmi", returned_as_nmi),
        ("hands_back_no_bit_9", hands_back_no_bit_9),
        ("forgets_with_18", forgets_with_18),
        ("single_18_is_one", single_18_is_one),
        ("mark_18_is_one", mark_18_is_one),
        ("unasked_machine_check", unasked_machine_check),
        ("machine_check_twice", machine_check_twice),
    ] {
        assert!(answers_differ(gate), "{name}");
    }
}

/// 13.13 to 13.16
#[test]
fn what_holds_of_every_module_reached() {
    let mut m = Module::refused();
    for mut event in lists(5, 20_000).into_iter().flatten() {
        step(&mut m, &mut event);
        for record in &m.records {
            let either = record.pending.joined(&record.service);
            assert!((0..31).all(|v| !either.has(v)));
            assert!(record.pending_level.without(&record.pending).is_empty());
            assert!(record.serving_level.without(&record.service).is_empty());
            assert!((0..31).all(|v| v == 2 || v == 18 || !record.allowed.has(v)));
            if let Some(item) = record.flight {
                assert_eq!(record.phase, Phase::Active);
                assert!(match item {
                    Item::MachineCheck | Item::Nmi => true,
                    Item::Vector(v) => record.service.has(v),
                });
            }
        }
    }
}
