//! The sums (12.27 to 12.33): how often each item was requested, returned, merged, presented and
//! handed back on each vCPU over a list, and whether it waits. All of it comes from the list, the
//! admitted parts by the book and the answers: no module is looked at here.

use crate::book::Book;
use crate::demand3::{admitted_by_book, entry_of};
use crate::events::{Answer, Event, Shown};
use crate::ipi::Ipi;
use crate::state::{items, Item};

/// Of one item on one vCPU.
#[derive(Clone, Copy, PartialEq, Eq, Debug, Default)]
pub struct Counts {
    pub requests: u64,
    pub returns: u64,
    pub merged: u64,
    pub presented: u64,
    pub handed_back: u64,
    /// 12.29
    pub waits: bool,
}

impl Counts {
    pub fn request(&mut self) {
        self.requests += 1;
        self.arrive();
    }

    pub fn give_back(&mut self) {
        self.returns += 1;
        self.arrive();
    }

    /// 12.30
    fn arrive(&mut self) {
        self.merged += u64::from(self.waits);
        self.waits = true;
    }

    pub fn present(&mut self) {
        self.presented += 1;
        self.waits = false;
    }

    /// 12.31
    pub fn hand_back(&mut self) {
        self.handed_back += u64::from(self.waits);
        self.waits = false;
    }

    /// One side of the sums.
    pub fn came(&self) -> u64 {
        self.requests + self.returns
    }

    /// The other side; what is still pending is the module's to say.
    pub fn went(&self, pending: bool) -> u64 {
        self.merged + self.presented + self.handed_back + u64::from(pending)
    }
}

/// How events move the counts. A test puts a wrong rule in the place of a right one.
#[derive(Clone, Copy)]
pub struct Rules {
    /// Whether an accepted IPI is a request on this vCPU; the number is its answer.
    pub reaches: fn(&Book, &Ipi, u64, u32) -> bool,
    pub request: fn(&mut Counts),
    pub give_back: fn(&mut Counts),
    pub present: fn(&mut Counts),
    pub hand_back: fn(&mut Counts),
}

impl Rules {
    pub const RIGHT: Rules = Rules {
        // 12.21, 12.27: no bit of the answer is read.
        reaches: |book, ipi, _, id| book.active(id) && ipi.targets(id),
        request: Counts::request,
        give_back: Counts::give_back,
        present: Counts::present,
        hand_back: Counts::hand_back,
    };
}

#[derive(Clone)]
struct Account {
    counts: Vec<Counts>,
    /// What the latest accepted entry presented (12.22).
    latest: Option<Item>,
}

/// The counts of one list, event by event, and the book that tells what its notices admit.
pub struct Sums {
    pub book: Book,
    vmpl: u32,
    rules: Rules,
    accounts: Vec<Account>,
}

/// Where an item's counts stand: 256 is the NMI, 257 the machine check.
fn place(item: Item) -> usize {
    match item {
        Item::Vector(v) => v,
        Item::Nmi => 256,
        Item::MachineCheck => 257,
    }
}

impl Sums {
    /// The book is that of the start (12.8).
    pub fn new(book: Book, vmpl: u32, rules: Rules) -> Sums {
        let none = Account {
            counts: vec![Counts::default(); items().count()],
            latest: None,
        };
        Sums {
            accounts: vec![none; book.n as usize],
            book,
            vmpl,
            rules,
        }
    }

    pub fn counts(&self, vcpu: u32, item: Item) -> Counts {
        self.accounts[vcpu as usize].counts[place(item)]
    }

    fn counts_mut(&mut self, vcpu: u32, item: Item) -> &mut Counts {
        &mut self.accounts[vcpu as usize].counts[place(item)]
    }

    /// 12.23; whether a hand-back was accepted is told by its answer, too. Lists of values count
    /// nothing (12.33), and the book sees every event after it was counted.
    pub fn count(&mut self, event: &Event, answer: &Answer) -> Result<(), String> {
        match (event, answer) {
            (Event::Notice { vcpu, page }, _) => self.notice(*vcpu, page),
            (Event::Call { .. }, Answer::Call(Ok(named))) => self.call(event, *named),
            (Event::Entry { vcpu, .. }, Answer::Entry(Ok(shown))) => self.entry(*vcpu, *shown),
            (Event::NonDelivery { vcpu }, Answer::NonDelivery(Ok(_))) => {
                self.non_delivery(*vcpu)?
            }
            (Event::HandBack { vcpu, .. }, Answer::HandBack(Ok(_))) => self.hand_back(*vcpu),
            _ => {}
        }
        if let Some(entry) = entry_of(event) {
            self.book.enter(&entry);
        }
        Ok(())
    }

    /// 12.18 to 12.20
    fn notice(&mut self, vcpu: u32, page: &[u8]) {
        for item in admitted_by_book(&self.book, self.vmpl, vcpu, page).items() {
            (self.rules.request)(self.counts_mut(vcpu, item));
        }
    }

    /// 12.21
    fn call(&mut self, event: &Event, named: u64) {
        let Some(ipi) = Ipi::of(event) else {
            return;
        };
        for id in 0..self.book.n {
            if (self.rules.reaches)(&self.book, &ipi, named, id) {
                (self.rules.request)(self.counts_mut(id, ipi.item));
            }
        }
    }

    fn entry(&mut self, vcpu: u32, shown: Shown) {
        let presented = match shown {
            Shown::Presented(item) => Some(item),
            _ => None,
        };
        self.accounts[vcpu as usize].latest = presented;
        if let Some(item) = presented {
            (self.rules.present)(self.counts_mut(vcpu, item));
        }
    }

    /// 12.22, 12.28
    fn non_delivery(&mut self, vcpu: u32) -> Result<(), String> {
        let Some(item) = self.accounts[vcpu as usize].latest else {
            return Err(format!(
                "a non-delivery accepted on vCPU {vcpu}, nothing presented"
            ));
        };
        (self.rules.give_back)(self.counts_mut(vcpu, item));
        Ok(())
    }

    /// Every waiting item, also a level-sensitive vector that the page does not name (10.16, 12.31).
    fn hand_back(&mut self, vcpu: u32) {
        for item in items() {
            (self.rules.hand_back)(self.counts_mut(vcpu, item));
        }
    }
}
