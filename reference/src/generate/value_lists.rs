//! Lists of ECX values (5.26).

use super::{calls, Generator};
use crate::calls::allow_rule;
use crate::events::Event;
use crate::state::Item;

/// Sizes at the borders of the rule, and a few beyond it.
const LONG: [usize; 13] = [
    200, 255, 255, 255, 256, 256, 256, 256, 257, 257, 257, 258, 512,
];

/// The longest list that a line can hold.
const MOST: usize = 1024;

impl Generator {
    pub(super) fn value_list(&mut self, vcpu: u32) -> Event {
        let r = &mut self.random;
        let values = match r.weighted(&[9, 12, 58, 10, 11]) {
            0 => vec![],
            1 => self.values(vcpu, 1),
            2 => {
                let count = r.between(2, 12);
                self.values(vcpu, count)
            }
            3 => {
                let count = r.between(13, 40);
                self.values(vcpu, count)
            }
            _ => self.long_list(vcpu),
        };
        self.with_codes(vcpu, values)
    }

    /// As a boot would have it, one vector after the other, or any values.
    fn long_list(&mut self, vcpu: u32) -> Vec<u32> {
        let count = match self.random.chance(4) {
            true => self.random.between(258, MOST),
            false => self.random.pick(&LONG),
        };
        if self.random.chance(60) {
            return self.values(vcpu, count);
        }
        let first = self.random.between(20, 60);
        (first..first + count)
            .map(|v| 256 + (v % 256) as u32)
            .collect()
    }

    /// Values for call 4, often one again or its opposite.
    fn values(&mut self, vcpu: u32, count: usize) -> Vec<u32> {
        let good = self.random.pick(&[0, 50, 85, 85, 95, 100, 100]);
        let mut values = Vec::new();
        while values.len() < count {
            let value = if !values.is_empty() && self.random.chance(25) {
                self.random.pick(&values) ^ self.random.pick(&[0, 0x100])
            } else if self.random.chance(good) {
                self.good_value(vcpu)
            } else {
                self.bad_value(vcpu)
            };
            values.push(value);
        }
        values
    }

    fn good_value(&mut self, vcpu: u32) -> u32 {
        let put = if self.random.chance(65) { 256 } else { 0 };
        let v = self.vector(vcpu) as u32;
        if allow_rule(v) {
            put + v
        } else {
            put + 31 + v
        }
    }

    /// A low vector or a reserved bit.
    fn bad_value(&mut self, vcpu: u32) -> u32 {
        let low = self
            .random
            .pick(&[0, 1, 3, 16, 17, 19, 29, 30, 0x111, 0x113, 0x11E, 0x11E]);
        let reserved = 1 << self.random.between(9, 31);
        match self.random.weighted(&[50, 45, 5]) {
            0 => low,
            1 => self.good_value(vcpu) + reserved,
            _ => self.random.pick(&[0x200, 0x3FF, u32::MAX]),
        }
    }

    /// The second list: mostly with a place for each code, less often on a vCPU that refuses anyway.
    fn with_codes(&mut self, vcpu: u32, values: Vec<u32>) -> Event {
        let count = values.len();
        let active = self.module.active(vcpu).is_ok();
        let r = &mut self.random;
        let short = if active { 14 } else { 80 };
        let length = match r.weighted(&[43, 28, short, 6, 2]) {
            0 => count,
            1 => count + r.between(1, 5),
            2 => count.saturating_sub(1),
            3 => r.below(count + 1),
            _ => count + r.between(20, 300),
        };
        let fill = match r.weighted(&[80, 20]) {
            0 => r.pick(&[0, 1, 0xAAAA_AAAA, 0x8000_0005, u32::MAX]),
            _ => r.number() as u32,
        };
        Event::Allow {
            vcpu,
            values,
            codes: vec![fill; length.min(MOST)],
        }
    }

    /// Vectors allowed, each by a call or all by one list.
    pub(super) fn allow_these(&mut self, vcpu: u32, vectors: &[usize]) {
        if self.random.chance(60) {
            let calls = vectors.iter().map(|&v| calls::allow(vcpu, v, true));
            self.queue.extend(calls);
            return;
        }
        let values: Vec<u32> = vectors.iter().map(|&v| 256 + v as u32).collect();
        let codes = vec![0; values.len()];
        self.queue.push_back(Event::Allow {
            vcpu,
            values,
            codes,
        });
    }

    /// A list while something is in flight: of nothing, of values that are all refused, of one that is
    /// accepted among refused ones, one that is refused itself, or any.
    pub(super) fn list_in_flight(&mut self, vcpu: u32) -> Event {
        let count = self.random.between(1, 4);
        let mut values: Vec<u32> = (0..count).map(|_| self.bad_value(vcpu)).collect();
        let at = self.random.below(count + 1);
        match self.random.below(5) {
            0 => values.clear(),
            1 => {}
            2 => {
                let good = self.good_value(vcpu);
                values.insert(at, good);
            }
            3 => {
                let good = self.good_value(vcpu);
                let codes = vec![0; values.len()];
                values.insert(at, good);
                return Event::Allow {
                    vcpu,
                    values,
                    codes,
                };
            }
            _ => return self.value_list(vcpu),
        }
        self.with_codes(vcpu, values)
    }

    /// A notice of something that the list names: whether it comes in tells what the list has left.
    pub(super) fn after_listing(&mut self, vcpu: u32, values: &[u32]) {
        if values.is_empty() || !self.random.chance(40) {
            return;
        }
        let item = match self.random.pick(values) % 256 {
            2 => Item::Nmi,
            18 => Item::MachineCheck,
            v => Item::Vector(v as usize),
        };
        let page = self.page_with(vcpu, item);
        self.at_once(Event::Notice { vcpu, page });
    }
}
