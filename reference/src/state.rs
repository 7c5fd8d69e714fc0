//! The module and its records (section 2), and start (section 3).

use crate::codes::{Code, BAD_START, NOT_ACTIVE, UNKNOWN_VCPU};
use crate::set::VectorSet;

#[derive(Clone, Copy, PartialEq, Eq, Debug)]
pub enum Phase {
    Active,
    Leaving,
    Left,
}

/// What can be admitted, sent, presented and returned. The machine check can be all of these but sent
/// (7.27).
#[derive(Clone, Copy, PartialEq, Eq, Debug)]
pub enum Item {
    MachineCheck,
    Nmi,
    Vector(usize),
}

/// Every item there is: the machine check, the NMI and the vectors 0 to 255.
pub fn items() -> impl Iterator<Item = Item> {
    [Item::MachineCheck, Item::Nmi]
        .into_iter()
        .chain((0..256).map(Item::Vector))
}

/// 2.3 to 2.11, 2.16
#[derive(Clone, PartialEq, Eq, Debug)]
pub struct Record {
    pub allowed: VectorSet,
    pub pending: VectorSet,
    pub service: VectorSet,
    pub pending_level: VectorSet,
    pub serving_level: VectorSet,
    pub nmi: bool,
    pub machine_check: bool,
    pub tpr: u8,
    pub icr: u64,
    pub phase: Phase,
    pub flight: Option<Item>,
}

/// 2.1
#[derive(Clone, PartialEq, Eq, Debug)]
pub struct Module {
    pub n: u32,
    pub vmpl: u32,
    pub count: u8,
    pub records: Vec<Record>,
}

impl Record {
    /// 3.3, 3.4
    pub fn fresh() -> Record {
        Record {
            allowed: VectorSet::empty(),
            pending: VectorSet::empty(),
            service: VectorSet::empty(),
            pending_level: VectorSet::empty(),
            serving_level: VectorSet::empty(),
            nmi: false,
            machine_check: false,
            tpr: 0,
            icr: 0,
            phase: Phase::Active,
            flight: None,
        }
    }

    /// 2.5, 2.8, 2.16. The IRR and the two marks alone are asked, the level-sensitive part is not.
    pub fn has_pending(&self, item: Item) -> bool {
        match item {
            Item::MachineCheck => self.machine_check,
            Item::Nmi => self.nmi,
            Item::Vector(v) => self.pending.has(v),
        }
    }

    /// 4.25, 4.28, 4.42, 7.17
    pub fn add_pending(&mut self, item: Item) {
        match item {
            Item::MachineCheck => self.machine_check = true,
            Item::Nmi => self.nmi = true,
            Item::Vector(v) => self.pending.put(v),
        }
    }
}

impl Module {
    /// The stopped module (3.6).
    pub fn refused() -> Module {
        Module {
            n: 0,
            vmpl: 1,
            count: 0,
            records: Vec::new(),
        }
    }

    /// How many vCPUs the module answers for (2.15).
    pub fn vcpus(&self) -> u32 {
        if self.n <= 32 && (1..=3).contains(&self.vmpl) {
            self.n
        } else {
            0
        }
    }

    /// 11.1
    pub fn known(&self, vcpu: u32) -> Result<(), Code> {
        if vcpu < self.vcpus() {
            Ok(())
        } else {
            Err(UNKNOWN_VCPU)
        }
    }

    /// 11.1 and 11.6, with which every event but a hand-back begins.
    pub fn active(&self, vcpu: u32) -> Result<(), Code> {
        self.known(vcpu)?;
        if self.record(vcpu).phase == Phase::Active {
            Ok(())
        } else {
            Err(NOT_ACTIVE)
        }
    }

    pub fn record(&self, vcpu: u32) -> &Record {
        &self.records[vcpu as usize]
    }

    pub fn record_mut(&mut self, vcpu: u32) -> &mut Record {
        &mut self.records[vcpu as usize]
    }
}

/// The answer to a start and its module (3.1 to 3.6).
pub fn start(n: u32, vmpl: u32) -> (Result<(), Code>, Module) {
    if !(1..=32).contains(&n) || !(1..=3).contains(&vmpl) {
        return (Err(BAD_START), Module::refused());
    }
    let records = vec![Record::fresh(); n as usize];
    (
        Ok(()),
        Module {
            n,
            vmpl,
            count: 1,
            records,
        },
    )
}
