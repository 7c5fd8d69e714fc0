//! What became of machine checks in a trace, and what was sent that is none (4.40 to 4.43).

use crate::codes::BAD_VALUE;
use crate::events::{Answer, Event, Shown};
use crate::ipi::Ipi;
use crate::page::{admitted, announces, bit, descriptor};
use crate::state::{Item, Module, Record};

/// An event has each of these kinds that it is of.
pub const KINDS: [&str; 17] = [
    "notice, machine check, new",
    "notice, machine check, was pending",
    "notice, machine check, not allowed",
    "notice, 18 in bits 7:0, allowed",
    "notice, 18 in bits 7:0 with bit 10, allowed",
    "notice, bit 18 under bit 14, allowed",
    "entry, machine check",
    "entry, machine check, NMI pending",
    "entry, machine check, without IF",
    "entry, machine check, shadow",
    "entry, machine check, NMI-blocked",
    "entry, machine check, 18 not allowed",
    "non-delivery, machine check",
    "non-delivery, machine check, was pending",
    "hand-back, machine check",
    "call 4, 18 taken out, machine check pending",
    "IPI of 18, refused",
];

pub fn kinds(before: &Module, event: &Event, answer: &Answer) -> Vec<String> {
    let found = match (event, answer) {
        (Event::Notice { vcpu, page }, Answer::Notice(Ok(_))) if announces(page, before.vmpl) => {
            notice_kinds(before.record(*vcpu), page, before.vmpl)
        }
        (Event::Call { vcpu, .. }, Answer::Call(Ok(_))) => call_kinds(before.record(*vcpu), event),
        (Event::Call { .. }, Answer::Call(Err(code))) => {
            let of_18 = Ipi::of(event).is_some_and(|ipi| ipi.item == Item::Vector(18));
            vec![("IPI of 18, refused", of_18 && *code == BAD_VALUE)]
        }
        (Event::Entry { vcpu, .. }, Answer::Entry(Ok(Shown::Presented(Item::MachineCheck)))) => {
            entry_kinds(before.record(*vcpu), event)
        }
        (Event::NonDelivery { vcpu }, Answer::NonDelivery(Ok(_))) => {
            let r = before.record(*vcpu);
            let returned = r.flight == Some(Item::MachineCheck);
            vec![
                ("non-delivery, machine check", returned),
                (
                    "non-delivery, machine check, was pending",
                    returned && r.machine_check,
                ),
            ]
        }
        (Event::HandBack { vcpu, .. }, Answer::HandBack(Ok(_))) => {
            let marked = before.record(*vcpu).machine_check;
            vec![("hand-back, machine check", marked)]
        }
        _ => vec![],
    };
    let held = found.iter().filter(|(_, holds)| *holds);
    held.map(|(kind, _)| kind.to_string()).collect()
}

type Found = Vec<(&'static str, bool)>;

fn notice_kinds(r: &Record, page: &[u8], vmpl: u32) -> Found {
    let start = descriptor(vmpl);
    let part = admitted(page, vmpl, &r.allowed);
    let allowed = r.allowed.has(18);
    let (level, many) = (bit(page, start, 10), bit(page, start, 14));
    let single = page[start] == 18 && allowed;
    vec![
        (
            "notice, machine check, new",
            part.machine_check && !r.machine_check,
        ),
        (
            "notice, machine check, was pending",
            part.machine_check && r.machine_check,
        ),
        (
            "notice, machine check, not allowed",
            bit(page, start, 9) && !allowed,
        ),
        ("notice, 18 in bits 7:0, allowed", single && !level && !many),
        (
            "notice, 18 in bits 7:0 with bit 10, allowed",
            single && level,
        ),
        (
            "notice, bit 18 under bit 14, allowed",
            bit(page, start, 18) && many && allowed,
        ),
    ]
}

fn entry_kinds(r: &Record, event: &Event) -> Found {
    let Event::Entry {
        if_set,
        shadow,
        blocked,
        ..
    } = *event
    else {
        unreachable!("asked of entries alone");
    };
    vec![
        ("entry, machine check", true),
        ("entry, machine check, NMI pending", r.nmi),
        ("entry, machine check, without IF", !if_set),
        ("entry, machine check, shadow", shadow),
        ("entry, machine check, NMI-blocked", blocked),
        ("entry, machine check, 18 not allowed", !r.allowed.has(18)),
    ]
}

fn call_kinds(r: &Record, event: &Event) -> Found {
    let taken_out = matches!(
        event,
        Event::Call {
            call: 4,
            ecx: 18,
            ..
        }
    );
    vec![(
        "call 4, 18 taken out, machine check pending",
        taken_out && r.allowed.has(18) && r.machine_check,
    )]
}
