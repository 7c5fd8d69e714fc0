//! The sums (02, A7) of vCPUs that leave while something is in flight and requested again. Generated
//! lists have this too seldom, so events are put into them.

use reference::events::{step, Answer, Event, Shown};
use reference::generate::lists;
use reference::page::set_bit;
use reference::state::{Item, Module, Phase};
use reference::sums::Rules;
use reference::sums_check::hold;

/// In front of a call that may make its vCPU leave: everything is allowed, an entry, and a notice of
/// what that presents.
fn in_front(m: &Module, event: &Event) -> Vec<Event> {
    let Event::Call { vcpu, call: 1, .. } = *event else {
        return vec![];
    };
    let values: Vec<u32> = [0x102, 0x112].into_iter().chain(0x11F..=0x1FF).collect();
    let allow = Event::Allow {
        vcpu,
        codes: vec![0; values.len()],
        values,
    };
    let entry = Event::Entry {
        vcpu,
        if_set: true,
        shadow: false,
        blocked: false,
    };
    let mut tried = m.clone();
    step(&mut tried, &mut allow.clone());
    match step(&mut tried, &mut entry.clone()) {
        Answer::Entry(Ok(Shown::Presented(item))) => {
            let page = page_of(m.vmpl, item);
            vec![allow, entry, Event::Notice { vcpu, page }]
        }
        _ => vec![],
    }
}

fn page_of(vmpl: u32, item: Item) -> Vec<u8> {
    let start = 64 * vmpl as usize;
    let mut page = vec![0; 256];
    set_bit(&mut page, 2, 7 + vmpl as usize);
    match item {
        Item::MachineCheck => set_bit(&mut page, start, 9),
        Item::Nmi => set_bit(&mut page, start, 8),
        Item::Vector(v) => page[start] = v as u8,
    }
    page
}

/// The list with these events put in, and how often a vCPU leaves with an item in flight and pending.
fn with_late_requests(list: &[Event]) -> (Vec<Event>, usize) {
    let mut m = Module::refused();
    let (mut longer, mut met) = (vec![], 0);
    for event in list {
        for event in in_front(&m, event) {
            step(&mut m, &mut event.clone());
            longer.push(event);
        }
        let before = m.clone();
        step(&mut m, &mut event.clone());
        longer.push(event.clone());
        let left = before.records.iter().zip(&m.records);
        let left =
            left.filter(|(was, is)| was.phase == Phase::Active && is.phase == Phase::Leaving);
        met += left
            .filter(|(was, _)| was.flight.is_some_and(|item| was.has_pending(item)))
            .count();
    }
    (longer, met)
}

/// Against 5.3: a vCPU that leaves takes a newer request for what is in flight for the same.
fn leaving_takes_the_newer(m: &mut Module, event: &mut Event) -> Answer {
    let before = m.clone();
    let answer = step(m, event);
    for (was, is) in before.records.iter().zip(&mut m.records) {
        if let (Phase::Leaving, Some(Item::Vector(v))) = (is.phase, was.flight) {
            is.pending.take(v);
        }
    }
    answer
}

#[test]
fn generated_lists_with_requests_for_what_is_in_flight() {
    let (mut met, mut found) = (0, 0);
    for list in lists(2, 40_000) {
        let (longer, times) = with_late_requests(&list);
        hold(&longer, step, Rules::RIGHT).unwrap();
        met += times;
        found += usize::from(hold(&longer, leaving_takes_the_newer, Rules::RIGHT).is_err());
    }
    assert!(met >= 100 && found >= 20, "{met} {found}");
}
