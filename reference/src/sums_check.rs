//! That the sums meet (13.88, 13.89) at every event of a list: a list cut short is a list too. And what
//! merged counts have to do with answers (13.95, 13.96).

use crate::answers::require;
use crate::demand3::{opened, Gate};
use crate::events::{Answer, Event};
use crate::ipi::Ipi;
use crate::state::{items, Item, Module};
use crate::sums::{Rules, Sums};

/// The sums meet after each event on the vCPUs that it can have changed, and on all in the end; and
/// merged rises as the answers of notices and IPIs say.
pub fn hold(list: &[Event], gate: Gate, rules: Rules) -> Result<(), String> {
    let (book, vmpl) = opened(list);
    let mut sums = Sums::new(book, vmpl, rules);
    let mut module = Module::refused();
    for (index, event) in list.iter().enumerate() {
        let answer = gate(&mut module, &mut event.clone());
        follow(&mut sums, &module, event, &answer)
            .map_err(|reason| format!("event {index}: {reason}"))?;
    }
    all_meet(&sums, &module)
}

fn follow(sums: &mut Sums, module: &Module, event: &Event, answer: &Answer) -> Result<(), String> {
    let places = where_merging(sums, event, answer);
    let merged = |sums: &Sums| -> Vec<u64> {
        let counts = places.iter().map(|&(id, item)| sums.counts(id, item));
        counts.map(|counts| counts.merged).collect()
    };
    let before = merged(sums);
    sums.count(event, answer)?;
    let after = merged(sums);
    let rises: Vec<u64> = after.iter().zip(&before).map(|(a, b)| a - b).collect();
    told(sums, event, answer, &rises)?;
    match (event.vcpu(), Ipi::of(event)) {
        (_, Some(_)) => all_meet(sums, module),
        (Some(vcpu), _) if vcpu < sums.book.n => meet(sums, module, vcpu),
        _ => Ok(()),
    }
}

/// What a notice or an IPI can merge with: any item on the one vCPU, the one item on any vCPU. A
/// refused IPI may name no item at all.
fn where_merging(sums: &Sums, event: &Event, answer: &Answer) -> Vec<(u32, Item)> {
    match (event, answer, Ipi::of(event)) {
        (Event::Notice { vcpu, .. }, _, _) if *vcpu < sums.book.n => {
            items().map(|item| (*vcpu, item)).collect()
        }
        (_, Answer::Call(Ok(_)), Some(ipi)) => (0..sums.book.n).map(|id| (id, ipi.item)).collect(),
        _ => vec![],
    }
}

/// The rises are those of the merged counts, in the order of `where_merging`. The book is the one
/// after the event, which neither a notice nor an IPI changes (12.17).
fn told(sums: &Sums, event: &Event, answer: &Answer, rises: &[u64]) -> Result<(), String> {
    match (answer, Ipi::of(event)) {
        (Answer::Notice(answer), _) => {
            let merged = answer.map_or(0, |admission| u64::from(admission.merged));
            require(
                rises.iter().all(|&rise| rise <= 1) && rises.iter().sum::<u64>() == merged,
                "a notice's second number is not that of the items that merged",
            )
        }
        (Answer::Call(Ok(named)), Some(ipi)) => {
            let unnamed = |id: u32| named / 2u64.pow(id) % 2 != 1;
            let merges = |id| sums.book.active(id) && ipi.targets(id) && unnamed(id);
            let expected = (0..sums.book.n).map(|id| u64::from(merges(id)));
            require(
                expected.eq(rises.iter().copied()),
                "an IPI merges elsewhere than at the active targets that it does not name",
            )
        }
        _ => Ok(()),
    }
}

pub fn all_meet(sums: &Sums, module: &Module) -> Result<(), String> {
    (0..sums.book.n).try_for_each(|vcpu| meet(sums, module, vcpu))
}

/// The sums of every item on one vCPU; and what waits is exactly what is pending.
fn meet(sums: &Sums, module: &Module, vcpu: u32) -> Result<(), String> {
    for item in items() {
        let counts = sums.counts(vcpu, item);
        let pending = module.record(vcpu).has_pending(item);
        let (came, went) = (counts.came(), counts.went(pending));
        if came != went {
            return Err(format!(
                "the sums of {item:?} on vCPU {vcpu} differ: {came} and {went}"
            ));
        }
        if counts.waits != pending {
            return Err(format!(
                "{item:?} on vCPU {vcpu}: waits is {}, pending {pending}",
                counts.waits
            ));
        }
    }
    Ok(())
}
