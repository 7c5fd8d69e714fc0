//! Pages of notices and hand-backs.

use super::Generator;
use crate::page::{descriptor, set_bit};
use crate::random::Random;
use crate::state::Item;

impl Generator {
    fn page_length(&mut self) -> usize {
        let r = &mut self.random;
        match r.weighted(&[88, 4, 8]) {
            0 => 256,
            1 => r.pick(&[255, 255, 255, 0, 2, 64, 192, 254]),
            _ => r.pick(&[257, 300, 512, 4095, 4096]),
        }
    }

    pub(super) fn notice_page(&mut self, vcpu: u32) -> Vec<u8> {
        let length = self.page_length();
        let mut page = vec![0; length.max(256)];
        let vmpl = self.module.vmpl;
        self.announce(&mut page, vmpl);
        self.low_bits(&mut page, vmpl, vcpu);
        self.marks(&mut page, vmpl, vcpu);
        if self.random.chance(12) {
            self.other_levels(&mut page, vcpu);
        }
        if self.random.chance(6) {
            scatter(&mut self.random, &mut page);
        }
        page.truncate(length);
        page
    }

    fn announce(&mut self, page: &mut [u8], vmpl: u32) {
        let r = &mut self.random;
        if r.chance(88) {
            set_bit(page, 2, 7 + vmpl as usize);
        }
        if r.chance(12) {
            let other = r.between(1, 3);
            set_bit(page, 2, 7 + other);
        }
        if r.chance(5) {
            page[2] = r.byte();
        }
        if r.chance(4) {
            set_bit(page, 2, r.between(11, 15));
        }
    }

    /// The descriptor's bits 30:0.
    fn low_bits(&mut self, page: &mut [u8], vmpl: u32, vcpu: u32) {
        let start = descriptor(vmpl);
        page[start] = self.vector(vcpu) as u8;
        let r = &mut self.random;
        if r.chance(4) {
            page[start] = 18;
        }
        for (number, percent) in [(8, 20), (9, 22), (10, 38), (14, 38)] {
            if r.chance(percent) {
                set_bit(page, start, number);
            }
        }
        if r.chance(10) {
            set_bit(page, start, r.pick(&[11, 12, 13, 15]));
        }
        if r.chance(10) {
            set_bit(page, start, r.between(16, 30));
        }
    }

    /// Marks (4.13), seldom where bit 14 is clear.
    fn marks(&mut self, page: &mut [u8], vmpl: u32, vcpu: u32) {
        let start = descriptor(vmpl);
        let many = page[start + 1] >= 64;
        if !self.random.chance(if many { 92 } else { 12 }) {
            return;
        }
        if self.random.chance(2) {
            page[start + 3..start + 32].fill(0xFF);
        }
        if self.random.chance(8) {
            set_bit(page, start, 18);
        }
        for _ in 0..self.random.between(1, 5) {
            let v = self.vector(vcpu).max(31);
            set_bit(page, start, v);
        }
        if self.random.chance(30) {
            let same = page[start].max(31) as usize;
            set_bit(page, start, same);
        }
    }

    /// A descriptor of another level, and the 32 bytes behind descriptors.
    fn other_levels(&mut self, page: &mut [u8], vcpu: u32) {
        let other = self.random.below(4) as u32;
        self.low_bits(page, other, vcpu);
        for _ in 0..self.random.between(0, 3) {
            let at = 32 + self.random.below(224);
            page[at] = self.random.byte();
        }
    }

    pub(super) fn hand_back_page(&mut self) -> Vec<u8> {
        let short = self.random.chance(8);
        let length = if short { 255 } else { self.page_length() };
        let mut page = vec![0; length];
        if self.random.chance(60) && length > 0 {
            scatter(&mut self.random, &mut page);
        }
        if self.random.chance(3) {
            page.fill(0xFF);
        }
        page
    }

    /// Announces one item and nothing else, a vector level-sensitive.
    pub(super) fn level_page(&self, item: Item) -> Vec<u8> {
        let mut page = self.single_page(item);
        if let Item::Vector(_) = item {
            set_bit(&mut page, descriptor(self.module.vmpl), 10);
        }
        page
    }

    fn single_page(&self, item: Item) -> Vec<u8> {
        let vmpl = self.module.vmpl;
        let start = descriptor(vmpl);
        let mut page = vec![0; 256];
        set_bit(&mut page, 2, 7 + vmpl as usize);
        match item {
            Item::MachineCheck => set_bit(&mut page, start, 9),
            Item::Nmi => set_bit(&mut page, start, 8),
            Item::Vector(v) => page[start] = v as u8,
        }
        page
    }

    /// Announces one item, as edge, level-sensitive or marked.
    pub(super) fn page_with(&mut self, vcpu: u32, item: Item) -> Vec<u8> {
        let start = descriptor(self.module.vmpl);
        let mut page = self.single_page(item);
        match (item, self.random.below(3)) {
            (Item::MachineCheck | Item::Nmi, _) | (_, 0) => {}
            (_, 1) => page = self.level_page(item),
            (Item::Vector(v), _) => {
                page[start] = self.vector(vcpu) as u8;
                set_bit(&mut page, start, 14);
                set_bit(&mut page, start, v.max(31));
            }
        }
        page
    }

    /// A notice again while its items are pending: the same page, or one that brings items that are
    /// pending and items that are not.
    pub(super) fn page_again(&mut self, vcpu: u32, page: &[u8]) -> Vec<u8> {
        if self.random.chance(40) {
            page.to_vec()
        } else {
            self.mixed_page(vcpu)
        }
    }

    /// Marks of allowed vectors, pending and not, often with the NMI, the machine check or a
    /// level-sensitive vector.
    fn mixed_page(&mut self, vcpu: u32) -> Vec<u8> {
        let start = descriptor(self.module.vmpl);
        let mut page = self.single_page(Item::Vector(0));
        set_bit(&mut page, start, 14);
        let record = self.module.record(vcpu);
        let (allowed, pending) = (&record.allowed, &record.pending);
        let new = allowed.without(pending);
        for from in [allowed.without(&new), new] {
            let from: Vec<usize> = from.members().into_iter().filter(|&v| v >= 31).collect();
            for _ in 0..self.random.between(1, 3).min(from.len()) {
                set_bit(&mut page, start, self.random.pick(&from));
            }
            if !from.is_empty() && self.random.chance(20) {
                page[start] = self.random.pick(&from) as u8;
                set_bit(&mut page, start, 10);
            }
        }
        for number in [8, 9] {
            if self.random.chance(40) {
                set_bit(&mut page, start, number);
            }
        }
        page
    }

    /// Every bit of the announcement and of the descriptor set.
    pub(super) fn full_page(&mut self) -> Vec<u8> {
        let start = descriptor(self.module.vmpl);
        let mut page = vec![0; 256];
        page[2..4].fill(0xFF);
        page[start..start + 32].fill(0xFF);
        page
    }
}

/// A few bytes anywhere, the last one of the first 256 and those behind among them.
fn scatter(r: &mut Random, page: &mut [u8]) {
    let last = page.len() - 1;
    for _ in 0..r.between(1, 6) {
        let at = match r.below(4) {
            0 => r.pick(&[
                0, 1, 2, 3, 63, 64, 95, 96, 127, 128, 191, 192, 223, 255, 256,
            ]),
            1 => last,
            _ => r.below(page.len()),
        };
        page[at.min(last)] = r.byte();
    }
}
