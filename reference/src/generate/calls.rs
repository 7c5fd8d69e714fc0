//! Guest calls.

use super::Generator;
use crate::events::Event;
use crate::registers::{EOI, ICR, PPR, SELF_IPI, TPR};
use crate::state::{Item, Phase};

pub(super) fn allow(vcpu: u32, v: usize, put: bool) -> Event {
    let ecx = v as u32 + if put { 256 } else { 0 };
    Event::Call {
        vcpu,
        call: 4,
        ecx,
        rdx: 0,
    }
}

pub(super) fn eoi(vcpu: u32) -> Event {
    write(vcpu, EOI, 0)
}

fn write(vcpu: u32, register: u32, value: u64) -> Event {
    Event::Call {
        vcpu,
        call: 3,
        ecx: register,
        rdx: value,
    }
}

impl Generator {
    /// A register the table names, its neighbours, the one of a vector that matters here, one of
    /// 0x7FF to 0x900, or far outside.
    fn register(&mut self, vcpu: u32) -> u32 {
        const NAMED: [u32; 16] = [
            0x802, 0x808, 0x80A, 0x80B, 0x80D, 0x80E, 0x80F, 0x810, 0x817, 0x818, 0x81F, 0x820,
            0x827, 0x828, ICR, SELF_IPI,
        ];
        const FAR: [u32; 8] = [0, 8, 0x30, 0x408, 0x1808, 0x1_0808, 0x8000_0808, u32::MAX];
        let word = self.vector(vcpu) as u32 / 32;
        let r = &mut self.random;
        match r.weighted(&[30, 8, 30, 5, 24, 3]) {
            0 => r.pick(&NAMED),
            1 => PPR,
            2 => r.pick(&[0x810, 0x818, 0x820]) + word,
            3 => r.between(0x810, 0x827) as u32,
            4 => r.between(0x7FF, 0x900) as u32,
            _ => r.pick(&FAR),
        }
    }

    pub(super) fn read(&mut self, vcpu: u32) -> Event {
        let rdx = if self.random.chance(20) {
            self.random.number()
        } else {
            0
        };
        Event::Call {
            vcpu,
            call: 2,
            ecx: self.register(vcpu),
            rdx,
        }
    }

    pub(super) fn write(&mut self, vcpu: u32) -> Event {
        match self.random.weighted(&[50, 22, 18, 10]) {
            0 => self.eoi_write(vcpu),
            1 => self.tpr_write(vcpu),
            2 => self.self_ipi(vcpu),
            _ => {
                let register = self.register(vcpu);
                let value = self
                    .random
                    .pick(&[0, 0, 1, 0x41, 0xFF, 0x100, 0x4041, u64::MAX]);
                write(vcpu, register, value)
            }
        }
    }

    fn eoi_write(&mut self, vcpu: u32) -> Event {
        match self.random.chance(94) {
            true => eoi(vcpu),
            false => write(vcpu, EOI, self.random.pick(&[1, 256, 1 << 32, 1 << 63])),
        }
    }

    /// A high TPR keeps everything pending, so it is mostly lowered again.
    fn tpr_write(&mut self, vcpu: u32) -> Event {
        let record = self.module.records.get(vcpu as usize);
        let high = record.is_some_and(|r| r.tpr >= 0x20);
        let serving = record.and_then(|r| r.service.highest()).unwrap_or(0) as u64;
        let pending = self.vector(vcpu) as u64;
        let r = &mut self.random;
        let value = match r.weighted(&[if high { 70 } else { 20 }, 25, 20, 12, 12]) {
            0 => 0,
            1 => r.pick(&[
                0x0F, 0x10, 0x1F, 0x20, 0x2F, 0x30, 0x3F, 0x40, 0x7F, 0x80, 0xEF, 0xFF,
            ]),
            2 => pending.saturating_sub(r.pick(&[0, 1, 15, 16, 17])),
            3 => serving - serving % 16 + r.below(16) as u64,
            _ => r.pick(&[0xFF, 0x100, 0x101, 0x141, 1 << 32, 1 << 63]),
        };
        write(vcpu, TPR, value)
    }

    fn self_ipi(&mut self, vcpu: u32) -> Event {
        let value = match self.random.chance(85) {
            true => self.vector(vcpu) as u64,
            false => self.random.pick(&[
                0,
                2,
                18,
                18,
                30,
                31,
                255,
                256,
                0x141,
                0x4041,
                (1 << 32) + 0x41,
            ]),
        };
        write(vcpu, SELF_IPI, value)
    }

    pub(super) fn allow_or_not(&mut self, vcpu: u32) -> Event {
        let put = self.random.chance(70);
        let v = match self.random.chance(15) {
            true => self.random.pick(&[18, 18, 18, 18, 17, 19]),
            false => self.vector(vcpu),
        };
        let Event::Call { ecx, .. } = allow(vcpu, v, put) else {
            unreachable!("allow makes a call");
        };
        let reserved = match self.random.chance(8) {
            true => 1 << self.random.between(9, 31),
            false => 0,
        };
        Event::Call {
            vcpu,
            call: 4,
            ecx: ecx + reserved,
            rdx: 0,
        }
    }

    pub(super) fn registration(&mut self, vcpu: u32) -> Event {
        let r = &mut self.random;
        let ecx = match r.weighted(&[25, 25, 40, 10]) {
            index @ 0..=2 => index as u32,
            _ => r.pick(&[3, 4, 0x100, 0x102, 0x1_0001, 0x8000_0000, u32::MAX]),
        };
        Event::Call {
            vcpu,
            call: 1,
            ecx,
            rdx: 0,
        }
    }

    /// Registers up to 255 and past it, and sometimes back down to 0.
    pub(super) fn many_registrations(&mut self) {
        let active = self.in_phase(Phase::Active);
        if active.is_empty() || self.module.count == 0 {
            return;
        }
        let vcpu = self.random.pick(&active);
        let up = 257 - u32::from(self.module.count);
        let down = if self.random.chance(50) { 253 } else { 2 };
        for _ in 0..up {
            self.queue.push_back(Event::Call {
                vcpu,
                call: 1,
                ecx: 2,
                rdx: 0,
            });
        }
        for _ in 0..down {
            self.queue.push_back(Event::Call {
                vcpu,
                call: 1,
                ecx: 1,
                rdx: 0,
            });
        }
        self.left += self.queue.len();
    }

    /// Call 0 with any ECX (5.5), and numbers that are no call (11.7).
    pub(super) fn odd_call(&mut self, vcpu: u32) -> Event {
        let r = &mut self.random;
        let call = r.pick(&[0, 0, 0, 5, 5, 6, 255, 256, 257, 260, 0x1_0004, u32::MAX]);
        let ecx = r.pick(&[0, 1, 0x141, 0x808, u32::MAX]);
        let rdx = r.pick(&[0, 1, u64::MAX]);
        Event::Call {
            vcpu,
            call,
            ecx,
            rdx,
        }
    }

    pub(super) fn icr_write(&mut self, vcpu: u32) -> Event {
        let nmi = self.random.chance(25);
        let shorthand = self.random.weighted(&[58, 14, 14, 14]) as u64;
        let shorthand = if nmi && (shorthand == 1 || shorthand == 2) {
            3
        } else {
            shorthand
        };
        let vector = match nmi {
            true => self.vector(vcpu),
            false => self.vector(vcpu).max(31),
        };
        let kind = if nmi { 4 } else { 0 };
        let logical = u64::from(self.random.chance(45));
        let destination = self.destination(logical == 1);
        let mut value = vector as u64
            + kind * 0x100
            + logical * 0x800
            + self.assert_and_trigger()
            + shorthand * 0x4_0000
            + destination * 0x1_0000_0000;
        if self.random.chance(22) {
            value = self.broken(value);
        }
        write(vcpu, ICR, value)
    }

    /// Bits 14 and 15, mostly as kernels write them (7.5).
    fn assert_and_trigger(&mut self) -> u64 {
        self.random.pick(&[0x4000, 0x4000, 0x0000, 0x8000, 0xC000])
    }

    fn destination(&mut self, logical: bool) -> u64 {
        let n = u64::from(self.module.n);
        let r = &mut self.random;
        if r.chance(12) {
            return 0xFFFF_FFFF;
        }
        if logical {
            let cluster = r.pick(&[0, 0, 0, 1, 1, 2, 0x100, 0xFFFF]);
            let members = match r.below(3) {
                0 => r.pick(&[0, 1, 2, 3, 0x8000, 0xFFFF]),
                1 => 1 << r.below(16),
                _ => r.number() % 0x1_0000,
            };
            return cluster * 0x1_0000 + members;
        }
        match r.weighted(&[70, 20, 10]) {
            0 => r.below(n.max(1) as usize) as u64,
            1 => r.pick(&[0, 1, n, 15, 16, 17, 31, 32]),
            _ => r.pick(&[0xFF, 0x100, 0x101, 0xFFFF, 0x1_0000, 0xFFFF_FFFE]),
        }
    }

    /// A value that is not legal (7.11).
    fn broken(&mut self, value: u64) -> u64 {
        let r = &mut self.random;
        let kind = r.pick(&[1, 2, 3, 5, 6, 7]);
        match r.below(5) {
            0 => value | 1 << r.pick(&[12, 13, 16, 17]),
            1 => value | 1 << r.between(20, 31),
            2 => (value & !0x700) | kind << 8,
            3 => (value & !0x7FF) | r.pick(&[0, 1, 2, 15, 16, 18, 18, 29, 30]),
            _ => (value & !0xC_0700) | 0x400 | r.pick(&[1, 2]) << 18,
        }
    }

    /// Another vCPU sends the item to this one. For the machine check it can only try (7.27).
    pub(super) fn send_to(&mut self, vcpu: u32, item: Item) -> Event {
        let sender = self.vcpu();
        self.send(sender, u64::from(vcpu), item)
    }

    fn send(&mut self, sender: u32, destination: u64, item: Item) -> Event {
        let low = match item {
            Item::MachineCheck => 18,
            Item::Nmi => 0x400,
            Item::Vector(v) => v as u64,
        };
        let bits = self.assert_and_trigger();
        write(sender, ICR, destination * 0x1_0000_0000 + bits + low)
    }

    /// The item of an IPI again while a vCPU has it pending: the same write, one to everyone, or
    /// one to that vCPU alone, by itself where it can be.
    pub(super) fn send_again(&mut self, ipi: &Event, item: Item, vcpu: u32) -> Event {
        match (self.random.below(3), item) {
            (0, _) => ipi.clone(),
            (1, _) => {
                let sender = self.vcpu();
                self.send(sender, 0xFFFF_FFFF, item)
            }
            (_, Item::MachineCheck | Item::Nmi) => self.send_to(vcpu, item),
            (_, Item::Vector(v)) => write(vcpu, SELF_IPI, v as u64),
        }
    }
}
