//! The book (12.6 to 12.17): phases and permissions, followed without page bytes or answers.

use crate::calls::allow_rule;
use crate::set::VectorSet;
use crate::state::{Module, Phase};

/// 12.9. Kinds of event that the book never heeds are left out. Of a second list it sees the length
/// (12.24, 12.25).
pub enum Entry<'a> {
    Call {
        vcpu: u32,
        call: u32,
        ecx: u32,
    },
    HandBack {
        vcpu: u32,
        length: usize,
    },
    Allow {
        vcpu: u32,
        values: &'a [u32],
        length: usize,
    },
}

#[derive(Clone, PartialEq, Eq, Debug)]
pub struct Page {
    pub phase: Phase,
    pub allowed: VectorSet,
}

#[derive(Clone, PartialEq, Eq, Debug)]
pub struct Book {
    pub n: u32,
    pub count: u8,
    pub vcpus: Vec<Page>,
}

impl Book {
    /// 12.8
    pub fn of(m: &Module) -> Book {
        let page = |r: &crate::state::Record| Page {
            phase: r.phase,
            allowed: r.allowed.clone(),
        };
        Book {
            n: m.n,
            count: m.count,
            vcpus: m.records.iter().map(page).collect(),
        }
    }

    pub fn active(&self, vcpu: u32) -> bool {
        vcpu < self.n && self.vcpus[vcpu as usize].phase == Phase::Active
    }

    /// 12.10, 12.11, 12.17
    pub fn enter(&mut self, entry: &Entry) {
        match *entry {
            Entry::Call { vcpu, call: 1, ecx } if self.active(vcpu) => self.registration(vcpu, ecx),
            Entry::Call { vcpu, call: 4, ecx } if self.active(vcpu) => self.allow(vcpu, ecx),
            Entry::Call { .. } => {}
            Entry::HandBack { vcpu, length } => self.hand_back(vcpu, length),
            Entry::Allow {
                vcpu,
                values,
                length,
            } => self.allow_all(vcpu, values, length),
        }
    }

    /// 12.12 to 12.14
    fn registration(&mut self, vcpu: u32, ecx: u32) {
        if ecx == 1 && self.count != 0 {
            self.count -= 1;
        }
        if ecx <= 1 && self.count == 0 {
            self.vcpus[vcpu as usize].phase = Phase::Leaving;
        }
        if ecx == 2 && (1..=254).contains(&self.count) {
            self.count += 1;
        }
    }

    /// 12.15
    fn allow(&mut self, vcpu: u32, ecx: u32) {
        let set = &mut self.vcpus[vcpu as usize].allowed;
        if !allow_rule(ecx) {
            return;
        }
        if ecx >= 256 {
            set.put((ecx - 256) as usize);
        } else {
            set.take(ecx as usize);
        }
    }

    /// 12.24, 12.25: as so many calls 4; a list that would be refused changes nothing.
    fn allow_all(&mut self, vcpu: u32, values: &[u32], length: usize) {
        if !self.active(vcpu) || values.len() > 256 || length < values.len() {
            return;
        }
        for &ecx in values {
            self.allow(vcpu, ecx);
        }
    }

    /// 12.16
    fn hand_back(&mut self, vcpu: u32, length: usize) {
        if vcpu >= self.n || length < 256 {
            return;
        }
        let page = &mut self.vcpus[vcpu as usize];
        if page.phase == Phase::Leaving {
            page.allowed = VectorSet::empty();
            page.phase = Phase::Left;
        }
    }
}
