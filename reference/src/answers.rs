//! What the answers of notices and IPIs say of pending items (13.25, 13.42 to 13.46), checked against
//! the module before and after each event of a list; and that the question foretells an entry (8.21 to 8.23).

use crate::book::Book;
use crate::codes::Code;
use crate::demand3::{admitted_by_book, entry_of, opened, Gate};
use crate::events::{ask, Admission, Answer, Event, Shown};
use crate::ipi::Ipi;
use crate::page::Admitted;
use crate::state::{items, Item, Module};

/// The module on both sides of an event.
struct Sides<'a> {
    before: &'a Module,
    after: &'a Module,
}

impl Sides<'_> {
    /// The item was not pending at this vCPU before the event and is after it.
    fn became_pending(&self, vcpu: u32, item: Item) -> bool {
        vcpu < self.before.n
            && !self.before.record(vcpu).has_pending(item)
            && self.after.record(vcpu).has_pending(item)
    }
}

pub fn hold(list: &[Event], gate: Gate) -> Result<(), String> {
    let (mut book, vmpl) = opened(list);
    let mut module = Module::refused();
    for (index, event) in list.iter().enumerate() {
        let before = module.clone();
        let answer = gate(&mut module, &mut event.clone());
        let sides = Sides {
            before: &before,
            after: &module,
        };
        check(&book, vmpl, &sides, event, &answer)
            .map_err(|reason| format!("event {index}: {reason}"))?;
        if let Some(entry) = entry_of(event) {
            book.enter(&entry);
        }
    }
    Ok(())
}

fn check(book: &Book, vmpl: u32, sides: &Sides, e: &Event, a: &Answer) -> Result<(), String> {
    match (e, a, Ipi::of(e)) {
        (Event::Notice { vcpu, page }, Answer::Notice(answer), _) => {
            let part = admitted_by_book(book, vmpl, *vcpu, page);
            notice(sides, *vcpu, &part, answer)
        }
        (_, Answer::Call(Ok(named)), Some(ipi)) => {
            names(sides, &ipi, *named)?;
            reaches(book, sides, &ipi)
        }
        (
            Event::Entry {
                vcpu,
                if_set: true,
                shadow: false,
                blocked: false,
            },
            Answer::Entry(answer),
            _,
        ) => {
            let presents = matches!(answer, Ok(Shown::Presented(_)));
            let foretold = ask(sides.before, *vcpu) == presents;
            require(foretold, "the question says other than the entry does")
        }
        _ => Ok(()),
    }
}

/// 13.25, 13.42, 13.43
fn notice(
    sides: &Sides,
    vcpu: u32,
    part: &Admitted,
    answer: &Result<Admission, Code>,
) -> Result<(), String> {
    let admitted = part.items();
    let Ok(Admission { new, merged }) = *answer else {
        return require(admitted.is_empty(), "a refused notice has admitted items");
    };
    let became = items().filter(|&item| sides.became_pending(vcpu, item));
    require(
        new as usize == became.count(),
        "the first number is not that of the items that became pending",
    )?;
    let before = sides.before.record(vcpu);
    let met = admitted.iter().filter(|&&item| before.has_pending(item));
    require(
        merged as usize == met.count(),
        "the second number is not that of the admitted items that were pending before",
    )?;
    require(
        (new + merged) as usize == admitted.len(),
        "the two numbers do not add up to that of the admitted items",
    )
}

/// 13.44, 13.45
fn names(sides: &Sides, ipi: &Ipi, named: u64) -> Result<(), String> {
    for id in 0..u64::BITS {
        require(
            (named / 2u64.pow(id) % 2 == 1) == sides.became_pending(id, ipi.item),
            "an IPI does not name the targets where its item became pending",
        )?;
    }
    Ok(())
}

/// 13.46
fn reaches(book: &Book, sides: &Sides, ipi: &Ipi) -> Result<(), String> {
    for id in (0..book.n).filter(|&id| book.active(id) && ipi.targets(id)) {
        require(
            sides.after.record(id).has_pending(ipi.item),
            "an IPI leaves an active target without its item",
        )?;
    }
    Ok(())
}

pub fn require(held: bool, fault: &str) -> Result<(), String> {
    if held {
        Ok(())
    } else {
        Err(fault.to_string())
    }
}
