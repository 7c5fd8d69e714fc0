//! The plain gate against `reference`, on its generated events: every answer, page, second list and module, the summary of each
//! record, and the question.

use plain::{InFlight, Outcome, Presentation, Set};
use reference::events::{ask, step, Admission, Answer, Event, Shown};
use reference::generate::Generator;
use reference::set::VectorSet;
use reference::state::{Item, Module, Phase, Record};

fn set(s: &Set) -> VectorSet {
    let members: Vec<usize> = (0..256)
        .filter(|v| s[v / 32] >> (v % 32) & 1 == 1)
        .collect();
    VectorSet::of(&members)
}

fn record(v: &plain::Vcpu) -> Record {
    Record {
        allowed: set(&v.allowed),
        pending: set(&v.irr),
        service: set(&v.isr),
        pending_level: set(&v.irr_level),
        serving_level: set(&v.isr_level),
        nmi: v.nmi,
        machine_check: v.machine_check,
        tpr: v.tpr,
        icr: v.icr,
        phase: match v.phase {
            plain::Phase::Active => Phase::Active,
            plain::Phase::Leaving => Phase::Leaving,
            plain::Phase::Left => Phase::Left,
        },
        flight: match v.flight {
            InFlight::Nothing => None,
            InFlight::MachineCheck => Some(Item::MachineCheck),
            InFlight::Nmi => Some(Item::Nmi),
            InFlight::Vector(x) => Some(Item::Vector(x.into())),
        },
    }
}

fn module(m: &plain::Module) -> Module {
    Module {
        n: m.n,
        vmpl: m.vmpl,
        count: m.registrations,
        records: m.vcpus[..m.n as usize].iter().map(record).collect(),
    }
}

/// Of the vCPUs that there are, and of some that there are not.
fn asked_alike(ours: &plain::Module, theirs: &Module) -> bool {
    let known = 0..theirs.n;
    let unknown = [theirs.n, 32, 256, 0x1_0000, u32::MAX];
    known
        .chain(unknown)
        .all(|vcpu| plain::would_present(ours, vcpu) == ask(theirs, vcpu))
}

fn summaries_true(ours: &plain::Module, theirs: &Module) -> bool {
    let both = ours.vcpus.iter().zip(&theirs.records);
    both.into_iter()
        .all(|(v, record)| v.summary == record.pending.summary())
}

fn number(o: Outcome) -> Result<u64, u32> {
    match o {
        Outcome::Done(value) => Ok(value),
        Outcome::Refused(r) => Err(r as u32),
    }
}

fn small(o: Outcome) -> Result<u32, u32> {
    number(o).map(|value| value as u32)
}

fn counted(a: plain::Admission) -> Result<Admission, u32> {
    match a {
        plain::Admission::Items(new, merged) => Ok(Admission { new, merged }),
        plain::Admission::Refused(r) => Err(r as u32),
    }
}

fn shown(p: Presentation) -> Result<Shown, u32> {
    match p {
        Presentation::Nothing => Ok(Shown::Nothing),
        Presentation::MachineCheck => Ok(Shown::Presented(Item::MachineCheck)),
        Presentation::Nmi => Ok(Shown::Presented(Item::Nmi)),
        Presentation::Vector(v) => Ok(Shown::Presented(Item::Vector(v.into()))),
        Presentation::Window(v) => Ok(Shown::Window(v.into())),
        Presentation::Refused(r) => Err(r as u32),
    }
}

fn played(m: &mut plain::Module, event: &mut Event) -> Answer {
    match event {
        Event::Start { n, vmpl } => {
            let (outcome, started) = plain::start(*n, *vmpl);
            *m = started;
            Answer::Start(number(outcome).map(|_| ()))
        }
        Event::Notice { vcpu, page } => Answer::Notice(counted(plain::notice(m, *vcpu, page))),
        Event::Call {
            vcpu,
            call,
            ecx,
            rdx,
        } => Answer::Call(number(plain::call(m, *vcpu, *call, *ecx, *rdx))),
        Event::Entry {
            vcpu,
            if_set,
            shadow,
            blocked,
        } => Answer::Entry(shown(plain::entry(m, *vcpu, *if_set, *shadow, *blocked))),
        Event::NonDelivery { vcpu } => Answer::NonDelivery(small(plain::non_delivery(m, *vcpu))),
        Event::HandBack {
            vcpu,
            if_set,
            shadow,
            page,
        } => Answer::HandBack(small(plain::hand_back(m, *vcpu, page, *if_set, *shadow))),
        Event::Allow {
            vcpu,
            values,
            codes,
        } => Answer::Allow(small(plain::allow(m, *vcpu, values, codes))),
    }
}

#[test]
fn agrees_on_generated_events() {
    for seed in 1..=20 {
        let mut generator = Generator::new(seed);
        let mut theirs = Module::refused();
        let mut ours = plain::start(0, 0).1;
        for i in 0..10_000 {
            let mut event = generator.next_event();
            let (written, mut same) = (event.to_string(), event.clone());
            let expected = step(&mut theirs, &mut same);
            assert_eq!(
                played(&mut ours, &mut event),
                expected,
                "seed {seed}, event {i}: {written}"
            );
            assert_eq!(
                event, same,
                "the page or second list, seed {seed}, event {i}: {written}"
            );
            assert_eq!(
                module(&ours),
                theirs,
                "the module, seed {seed}, event {i}: {written}"
            );
            assert!(
                summaries_true(&ours, &theirs),
                "a summary, seed {seed}, event {i}: {written}"
            );
            assert!(
                asked_alike(&ours, &theirs),
                "a question, seed {seed}, event {i}: {written}"
            );
        }
    }
}

/// Marks over empty words slow an entry down and change no answer.
#[test]
fn too_many_marks_do_no_harm() {
    let mut generator = Generator::new(21);
    let mut theirs = Module::refused();
    let mut ours = plain::start(0, 0).1;
    for i in 0..10_000 {
        let mut event = generator.next_event();
        let expected = step(&mut theirs, &mut event.clone());
        for v in &mut ours.vcpus {
            v.summary |= 1 << (i % 8) | 1 << (i / 8 % 8);
        }
        assert_eq!(played(&mut ours, &mut event), expected);
        assert_eq!(module(&ours), theirs);
        assert!(asked_alike(&ours, &theirs));
    }
}

/// Every value below 1,024 and some above, by a list and by so many calls: the same codes and the same record.
#[test]
fn a_list_is_its_single_calls() {
    let high = [0x8000_0141, u32::MAX, 0x1_0141];
    let values: Vec<u32> = (0..1024).rev().chain(high).collect();
    let (mut one, mut other) = (plain::start(2, 1).1, plain::start(2, 1).1);
    for part in values.chunks(200) {
        let mut codes = vec![7; part.len() + 1];
        assert_eq!(
            plain::allow(&mut one, 1, part, &mut codes),
            Outcome::Done(0)
        );
        for (&ecx, &code) in part.iter().zip(&codes) {
            let single = small(plain::call(&mut other, 1, 4, ecx, 0));
            assert_eq!(single.err().unwrap_or(0), code, "{ecx:#x}");
        }
        assert_eq!(codes[part.len()], 7);
        assert_eq!(module(&one), module(&other));
    }
}

/// An event, played by both: the same answer, page or second list, and module.
fn agree(ours: &mut plain::Module, mut event: Event) -> Answer {
    let (mut after, mut same) = (module(ours), event.clone());
    let expected = step(&mut after, &mut same);
    assert_eq!(played(ours, &mut event), expected, "{event}");
    assert_eq!(event, same);
    assert_eq!(module(ours), after);
    expected
}

fn agrees(ours: &mut plain::Module, vcpu: u32, values: &[u32], length: usize) {
    let event = Event::Allow {
        vcpu,
        values: values.to_vec(),
        codes: vec![7; length],
    };
    agree(ours, event);
}

/// Sizes of both lists at the borders of the rule.
fn agrees_on_sizes(flight: InFlight, vcpu: u32) {
    let values: Vec<u32> = (0..300)
        .map(|k| if k % 3 == 0 { 30 } else { 0x11F + k % 225 })
        .collect();
    for count in [0, 1, 2, 3, 255, 256, 257, 300] {
        for length in [0, count.max(1) - 1, count, count + 1, 400] {
            let mut ours = plain::start(3, 2).1;
            ours.vcpus[0].flight = flight;
            ours.vcpus[1].phase = plain::Phase::Leaving;
            ours.vcpus[2].phase = plain::Phase::Left;
            agrees(&mut ours, vcpu, &values[..count], length);
        }
    }
}

/// With each kind of item in flight and with none; vCPUs that are active, leaving, left and unknown.
#[test]
fn agrees_on_the_borders_of_lists() {
    for flight in [
        InFlight::Nothing,
        InFlight::MachineCheck,
        InFlight::Nmi,
        InFlight::Vector(0x41),
    ] {
        for vcpu in [0, 1, 2, 3, u32::MAX] {
            agrees_on_sizes(flight, vcpu);
        }
    }
}

/// A vCPU that is active, one that is leaving and one that has left, with this count.
fn phases(count: u8) -> plain::Module {
    let mut m = plain::start(3, 2).1;
    m.registrations = count;
    m.vcpus[1].phase = plain::Phase::Leaving;
    m.vcpus[2].phase = plain::Phase::Left;
    m
}

/// 11.17: the vCPU, then its phase, then the page, whatever IF, shadow and the count are.
#[test]
fn the_codes_of_hand_backs() {
    for (vcpu, codes) in [
        (0, [3, 3, 3, 3]),
        (1, [2, 2, 0, 0]),
        (2, [7, 7, 7, 7]),
        (3, [1, 1, 1, 1]),
        (32, [1, 1, 1, 1]),
        (258, [1, 1, 1, 1]),
        (u32::MAX, [1, 1, 1, 1]),
    ] {
        for (length, code) in [0, 255, 256, 300].into_iter().zip(codes) {
            for flags in 0..8 {
                let [if_set, shadow, registered] = [1, 2, 4].map(|bit| flags & bit != 0);
                let event = Event::HandBack {
                    vcpu,
                    if_set,
                    shadow,
                    page: vec![0xFF; length],
                };
                let answer = agree(&mut phases(u8::from(registered)), event);
                assert_eq!(answer.refusal().unwrap_or(0), code, "{vcpu}, {length}");
            }
        }
    }
}

/// 11.24: on a vCPU that has left code 7 is for hand-backs alone.
#[test]
fn other_events_on_a_vcpu_that_has_left() {
    let vcpu = 2;
    let call = |call, ecx| Event::Call {
        vcpu,
        call,
        ecx,
        rdx: 0,
    };
    let list = |values| Event::Allow {
        vcpu,
        values: vec![0x141; values],
        codes: vec![],
    };
    let notice = |length| Event::Notice {
        vcpu,
        page: vec![0xFF; length],
    };
    let entry = Event::Entry {
        vcpu,
        if_set: true,
        shadow: false,
        blocked: false,
    };
    let mut events = vec![notice(256), notice(0), entry, Event::NonDelivery { vcpu }];
    events.extend([call(0, 0), call(1, 2), call(5, 0), list(0), list(257)]);
    for event in events {
        let answer = agree(&mut phases(1), event);
        assert_eq!(answer.refusal(), Some(0x8000_0001));
    }
}
