//! The other list of 13.20 and 13.21: notices get new bytes of the same length that admit the same.

use crate::demand3::{accepting, entry_of, opened};
use crate::events::Event;
use crate::page::{admitted, bit, clear_bit, descriptor, set_bit, Admitted};
use crate::random::Random;
use crate::set::VectorSet;

/// The twin, and how many pages are not as they were.
pub fn twin(r: &mut Random, list: &[Event]) -> (Vec<Event>, usize) {
    let (mut book, vmpl) = opened(list);
    let mut second = list.to_vec();
    let mut changed = 0;
    for event in &mut second {
        if let Event::Notice { vcpu, page } = event {
            let other = match accepting(&book, *vcpu, page.len()) {
                Some(allowed) => other_page(r, page, vmpl, allowed),
                None => page.iter().map(|_| r.byte()).collect(),
            };
            changed += usize::from(other != *page);
            *page = other;
        }
        if let Some(entry) = entry_of(event) {
            book.enter(&entry);
        }
    }
    (second, changed)
}

/// Many small proposals, each kept only if the admitted part stays as it was.
fn other_page(r: &mut Random, page: &[u8], vmpl: u32, allowed: &VectorSet) -> Vec<u8> {
    let part = admitted(page, vmpl, allowed);
    let mut kept = page.to_vec();
    for _ in 0..r.between(3, 16) {
        let mut proposed = match r.below(12) {
            0 => rebuilt(r, page.len(), vmpl, allowed, &part),
            _ => kept.clone(),
        };
        change(r, &mut proposed, vmpl);
        if admitted(&proposed, vmpl, allowed) == part {
            kept = proposed;
        }
    }
    kept
}

fn flip(page: &mut [u8], start: usize, number: usize) {
    if bit(page, start, number) {
        clear_bit(page, start, number);
    } else {
        set_bit(page, start, number);
    }
}

fn change(r: &mut Random, page: &mut [u8], vmpl: u32) {
    let start = descriptor(vmpl);
    match r.below(9) {
        0 => {
            let at = r.below(page.len());
            page[at] = r.byte();
        }
        1 => flip(page, 2, r.below(16)),
        2 => flip(page, start, r.pick(&[9, 11, 12, 13, 15])),
        3 => flip(page, start, r.between(16, 30)),
        4 => flip(page, start, r.between(31, 255)),
        5 => page[start] = r.byte(),
        6 => flip(page, start, r.pick(&[8, 9, 10, 14])),
        7 => flip(page, 2, 7 + vmpl as usize),
        _ => {
            let last = page.len() - 1;
            page[last] = r.byte();
        }
    }
}

/// New bytes all over that admit the same part, often by another form.
fn rebuilt(r: &mut Random, length: usize, vmpl: u32, a: &VectorSet, part: &Admitted) -> Vec<u8> {
    let start = descriptor(vmpl);
    let mut page: Vec<u8> = (0..length).map(|_| r.byte()).collect();
    let single = part.level.is_none() && part.edge.members().len() == 1 && r.chance(50);
    let many = !single && (!part.edge.is_empty() || r.chance(70));
    put(&mut page, 2, 7 + vmpl as usize, true);
    if a.has(2) {
        put(&mut page, start, 8, part.nmi);
    }
    if a.has(18) {
        put(&mut page, start, 9, part.machine_check);
    }
    put(&mut page, start, 10, part.level.is_some());
    put(&mut page, start, 14, many);
    if let Some(v) = part.level {
        page[start] = v as u8;
    } else if single {
        page[start] = part.edge.highest().expect("one member") as u8;
    }
    for v in (31..=255).filter(|&v| many && a.has(v) && part.level != Some(v)) {
        put(&mut page, start, v, part.edge.has(v));
    }
    page
}

fn put(page: &mut [u8], start: usize, number: usize, value: bool) {
    if bit(page, start, number) != value {
        flip(page, start, number);
    }
}
