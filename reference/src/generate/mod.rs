//! Seeded traces that lean toward the corners of `docs/SPECIFICATION.md`.
//!
//! The generator plays what it generates, so that it can aim: at vectors that are allowed, pending
//! or in service, at vCPUs that are leaving, at what is in flight. A trace is a row of lists, each
//! with its own `start`.

mod asks;
mod calls;
mod pages;
mod value_lists;

use std::collections::VecDeque;
use std::io::{Result, Write};

use crate::events::{step, Answer, Event, Shown};
use crate::ipi::Ipi;
use crate::odd_lines;
use crate::random::Random;
use crate::state::{Item, Module, Phase};

/// Vectors at the borders of a rule, and the one this gate was built for.
const CORNERS: [usize; 15] = [
    2, 18, 30, 31, 32, 47, 48, 0x41, 0x4F, 0x50, 0x80, 0x81, 0xEF, 254, 255,
];

/// How often each kind of event comes in one list, in the order of `Generator::choose`.
type Style = [usize; 12];

const STYLES: [Style; 4] = [
    // A busy guest.
    [26, 5, 14, 9, 9, 1, 28, 4, 1, 2, 0, 4],
    // A host that sends all the time.
    [60, 3, 8, 3, 6, 0, 20, 3, 0, 1, 0, 3],
    // A guest that tries registers and calls.
    [8, 20, 25, 20, 8, 2, 12, 2, 1, 4, 0, 6],
    // vCPUs that leave and are handed back.
    [20, 4, 8, 8, 8, 4, 22, 4, 6, 2, 8, 5],
];

const LEAVING: usize = 3;

pub struct Generator {
    random: Random,
    module: Module,
    /// Events already decided on.
    queue: VecDeque<Event>,
    /// Events left in this list.
    left: usize,
    style: Style,
    /// The vectors and vCPUs that this list uses most.
    pool: Vec<usize>,
    focus: Vec<u32>,
}

impl Generator {
    pub fn new(seed: u64) -> Generator {
        Generator {
            random: Random::new(seed),
            module: Module::refused(),
            queue: VecDeque::new(),
            left: 0,
            style: STYLES[0],
            pool: vec![0x41],
            focus: vec![0],
        }
    }

    pub fn next_event(&mut self) -> Event {
        if self.left == 0 {
            self.begin_list();
        }
        self.left -= 1;
        let event = match self.queue.pop_front() {
            Some(event) => event,
            None => self.choose(),
        };
        let answer = step(&mut self.module, &mut event.clone());
        self.follow(&event, &answer);
        event
    }

    fn begin_list(&mut self) {
        let (n, vmpl) = self.size();
        let good = (1..=32).contains(&n) && (1..=3).contains(&vmpl);
        let r = &mut self.random;
        let style = r.weighted(&[2, 2, 2, 4]);
        self.style = STYLES[style];
        self.left = match (good, style, r.weighted(&[35, 50, 15])) {
            (false, _, _) => r.between(3, 10),
            (true, _, 0) | (true, LEAVING, _) => r.between(20, 100),
            (true, _, 1) => r.between(100, 400),
            (true, _, _) => r.between(500, 1500),
        };
        self.pool = (0..3).map(|_| r.pick(&CORNERS)).collect();
        self.pool.extend((0..4).map(|_| r.between(31, 255)));
        let last = n.saturating_sub(1);
        self.focus = vec![0, last, r.below(n.clamp(1, 32) as usize) as u32];
        self.queue.clear();
        self.queue.push_back(Event::Start { n, vmpl });
        if good {
            self.open_list(n);
        }
    }

    /// n and L of a start, now and then refused, sometimes by a number that a narrower width would
    /// cut to a good one.
    fn size(&mut self) -> (u32, u32) {
        let r = &mut self.random;
        let n = match r.weighted(&[10, 36, 14, 12, 18, 10]) {
            0 => 1,
            1 => 2,
            2 => 18,
            3 => 32,
            4 => r.between(3, 31) as u32,
            _ => r.pick(&[0, 0, 33, 33, 34, 256, 257, 258, 0x1_0002, u32::MAX]),
        };
        let vmpl = match r.chance(88) {
            true => r.between(1, 3) as u32,
            false => r.pick(&[0, 0, 4, 4, 5, 257, 258, 0x1_0001, u32::MAX]),
        };
        (n, vmpl)
    }

    /// The guest allows most of the pool at first; rarely everything, or it registers to the full.
    fn open_list(&mut self, n: u32) {
        for vcpu in self.focus.clone() {
            let mut vectors = self.pool.clone();
            vectors.retain(|_| self.random.chance(75));
            let mut marked = vec![2, 18];
            marked.retain(|_| self.random.chance(60));
            vectors.extend(marked);
            self.allow_these(vcpu, &vectors);
        }
        if n <= 2 && self.random.chance(6) {
            self.allow_everything();
        }
        self.left += self.queue.len();
    }

    fn allow_everything(&mut self) {
        let every: Vec<usize> = [2, 18].into_iter().chain(31..=255).collect();
        self.allow_these(0, &every);
        let full = self.full_page();
        self.queue.push_back(Event::Notice {
            vcpu: 0,
            page: full,
        });
    }

    fn choose(&mut self) -> Event {
        if !self.anyone_active() {
            self.left = self.left.min(8);
        }
        if self.random.below(2500) == 0 {
            self.many_registrations();
        }
        let vcpu = self.vcpu();
        match self.random.weighted(&self.style.clone()) {
            0 => Event::Notice {
                vcpu,
                page: self.notice_page(vcpu),
            },
            1 => self.read(vcpu),
            2 => self.write(vcpu),
            3 => self.icr_write(vcpu),
            4 => self.allow_or_not(vcpu),
            5 => self.registration(vcpu),
            6 => self.entry(vcpu),
            7 => Event::NonDelivery { vcpu },
            8 => self.hand_back(),
            9 => self.odd_call(vcpu),
            10 => self.farewell(),
            _ => self.value_list(vcpu),
        }
    }

    /// A vCPU with much pending and in service leaves and is handed back.
    fn farewell(&mut self) -> Event {
        let mut active = self.in_phase(Phase::Active);
        active.push(self.vcpu());
        let vcpu = self.random.pick(&active);
        self.fill_up(vcpu);
        for _ in 0..self.module.count.clamp(1, 6) {
            self.queue.push_back(Event::Call {
                vcpu,
                call: 1,
                ecx: 1,
                rdx: 0,
            });
        }
        self.give_back(vcpu);
        self.left += self.queue.len();
        let first = self.random.pick(&[2, 18]);
        calls::allow(vcpu, first, true)
    }

    /// Requests, and guest events among them that take some of these; the machine check is often the
    /// last, so that it is still pending when the vCPU leaves.
    fn fill_up(&mut self, vcpu: u32) {
        let alone = self.random.chance(30);
        for _ in 0..self.random.between(1, 4) {
            let item = Item::Vector(self.vector(vcpu));
            let page = if alone {
                self.level_page(item)
            } else {
                self.notice_page(vcpu)
            };
            self.queue.push_back(Event::Notice { vcpu, page });
        }
        let more = [
            self.plain_entry(vcpu),
            self.write(vcpu),
            self.entry(vcpu),
            self.icr_write(vcpu),
        ];
        self.queue
            .extend(more.into_iter().filter(|_| self.random.chance(60)));
        if self.random.chance(60) {
            let page = self.level_page(Item::MachineCheck);
            self.queue.push_back(calls::allow(vcpu, 18, true));
            self.queue.push_back(Event::Notice { vcpu, page });
        }
    }

    /// Hand-backs, and events that come too late.
    fn give_back(&mut self, vcpu: u32) {
        let late = [
            self.entry(vcpu),
            Event::NonDelivery { vcpu },
            self.hand_back(),
            self.value_list(vcpu),
        ];
        self.queue
            .extend(late.into_iter().filter(|_| self.random.chance(25)));
        for _ in 0..self.random.between(1, 2) {
            let (if_set, shadow) = (self.random.chance(50), self.random.chance(50));
            let page = self.hand_back_page();
            self.queue.push_back(Event::HandBack {
                vcpu,
                if_set,
                shadow,
                page,
            });
        }
    }

    /// Events that belong behind the one just played.
    fn follow(&mut self, event: &Event, answer: &Answer) {
        match (event, answer, Ipi::of(event)) {
            (Event::Entry { vcpu, .. }, Answer::Entry(Ok(Shown::Presented(item))), _) => {
                self.after_presenting(*vcpu, *item);
            }
            (Event::Notice { vcpu, page }, Answer::Notice(Ok(a)), _) if a.new > 0 => {
                self.after_admitting(*vcpu, page);
            }
            (_, Answer::Call(Ok(named)), Some(ipi)) if *named > 0 => {
                self.after_sending(event, ipi.item, named.ilog2());
            }
            (Event::Allow { vcpu, values, .. }, _, _) => self.after_listing(*vcpu, values),
            _ => {}
        }
    }

    fn after_admitting(&mut self, vcpu: u32, page: &[u8]) {
        if self.random.chance(15) {
            let page = self.page_again(vcpu, page);
            self.at_once(Event::Notice { vcpu, page });
        }
        // Where more is decided on, the vCPU may be about to leave with it.
        let free = self.queue.is_empty();
        if free && self.module.record(vcpu).machine_check && self.random.chance(60) {
            self.with_machine_check(vcpu);
        }
    }

    /// An entry while the machine check is pending, often with the NMI pending too or after the guest
    /// has taken 18 out.
    fn with_machine_check(&mut self, vcpu: u32) {
        let entry = self.held_entry(vcpu);
        self.at_once(entry);
        match self.random.below(5) {
            0 => {
                let ipi = self.send_to(vcpu, Item::Nmi);
                self.at_once(ipi);
            }
            1 => {
                let page = self.page_with(vcpu, Item::Nmi);
                self.at_once(Event::Notice { vcpu, page });
            }
            2 => {
                self.at_once(calls::allow(vcpu, 18, false));
                self.queue.push_back(calls::allow(vcpu, 18, true));
            }
            _ => {}
        }
    }

    fn after_sending(&mut self, ipi: &Event, item: Item, named: u32) {
        if self.random.chance(25) {
            let again = self.send_again(ipi, item, named);
            self.at_once(again);
        }
    }

    /// Next, ahead of what was decided on: the guest has not run in between.
    fn at_once(&mut self, event: Event) {
        self.queue.push_front(event);
        self.left += 1;
    }

    fn after_presenting(&mut self, vcpu: u32, item: Item) {
        match self.random.weighted(&[30, 40, 30]) {
            0 => self.intercepted(vcpu, item),
            1 => self.queue.push_back(calls::eoi(vcpu)),
            _ => {}
        }
    }

    /// A non-delivery, sometimes with something between the entry and it.
    fn intercepted(&mut self, vcpu: u32, item: Item) {
        let between = match self.random.weighted(&[2, 1, 1, 1, 2, 2]) {
            0 => Some(Event::Notice {
                vcpu,
                page: self.page_with(vcpu, item),
            }),
            1 => Some(self.send_to(vcpu, item)),
            2 => Some(self.odd_call(vcpu)),
            3 => Some(self.read(vcpu)),
            4 => Some(self.list_in_flight(vcpu)),
            _ => None,
        };
        self.queue.extend(between);
        self.queue.push_back(Event::NonDelivery { vcpu });
        if self.random.chance(60) {
            self.queue.push_back(self.plain_entry(vcpu));
        }
    }

    fn entry(&mut self, vcpu: u32) -> Event {
        let r = &mut self.random;
        let (if_set, shadow, blocked) = (r.chance(80), r.chance(15), r.chance(20));
        Event::Entry {
            vcpu,
            if_set,
            shadow,
            blocked,
        }
    }

    /// An entry that would hold most things back.
    fn held_entry(&mut self, vcpu: u32) -> Event {
        let r = &mut self.random;
        let (if_set, shadow, blocked) = (r.chance(40), r.chance(50), r.chance(50));
        Event::Entry {
            vcpu,
            if_set,
            shadow,
            blocked,
        }
    }

    fn plain_entry(&self, vcpu: u32) -> Event {
        Event::Entry {
            vcpu,
            if_set: true,
            shadow: false,
            blocked: false,
        }
    }

    fn hand_back(&mut self) -> Event {
        let leaving: Vec<u32> = self.in_phase(Phase::Leaving);
        let aimed = !leaving.is_empty() && self.random.chance(80);
        let vcpu = if aimed {
            self.random.pick(&leaving)
        } else {
            self.vcpu()
        };
        let (if_set, shadow) = (self.random.chance(50), self.random.chance(50));
        Event::HandBack {
            vcpu,
            if_set,
            shadow,
            page: self.hand_back_page(),
        }
    }

    fn in_phase(&self, phase: Phase) -> Vec<u32> {
        (0..self.module.n)
            .filter(|&id| self.module.record(id).phase == phase)
            .collect()
    }

    fn anyone_active(&self) -> bool {
        self.module.records.iter().any(|r| r.phase == Phase::Active)
    }

    /// Mostly a vCPU that the list uses often, sometimes an unknown one.
    fn vcpu(&mut self) -> u32 {
        let n = self.module.n;
        let r = &mut self.random;
        match r.weighted(&[70, 26, 4]) {
            0 => r.pick(&self.focus),
            1 => r.below(n.max(1) as usize) as u32,
            _ => r.pick(&[
                n,
                n + 1,
                31,
                32,
                33,
                255,
                256,
                0x1_0000,
                0x8000_0000,
                u32::MAX,
            ]),
        }
    }

    /// A vector of any size: from the pool, a corner, one of the vCPU's sets, or any.
    fn vector(&mut self, vcpu: u32) -> usize {
        let sets = match self.module.records.get(vcpu as usize) {
            Some(r) => [
                r.allowed.members(),
                r.pending.members(),
                r.service.members(),
            ],
            None => [vec![], vec![], vec![]],
        };
        let r = &mut self.random;
        let from = match r.weighted(&[40, 15, 18, 10, 7, 10]) {
            0 => self.pool.clone(),
            1 => CORNERS.to_vec(),
            2 => sets[0].clone(),
            3 => sets[1].clone(),
            4 => sets[2].clone(),
            _ => vec![],
        };
        if from.is_empty() {
            r.below(256)
        } else {
            r.pick(&from)
        }
    }
}

/// Writes a trace of `count` events; questions, `state` lines, passed over and unreadable ones come on top.
pub fn generate(seed: u64, count: usize, out: &mut impl Write) -> Result<()> {
    let mut generator = Generator::new(seed);
    let mut odd = Random::new(seed ^ 0x6F64_6421);
    let mut asking = Random::new(seed ^ 0x6173_6B21);
    writeln!(out, "# generate {seed} {count}")?;
    for _ in 0..count {
        let event = generator.next_event();
        if matches!(event, Event::Start { .. }) {
            writeln!(out, "ask {}", asking.below(3))?;
            writeln!(out, "state")?;
        }
        odd_lines::before(&mut odd, &event, out)?;
        out.write_all(&odd_lines::spelling(&mut odd, &event))?;
        out.write_all(b"\n")?;
        for vcpu in asks::behind(&mut asking, &generator.module, &event) {
            out.write_all(&odd_lines::question(&mut asking, vcpu))?;
            out.write_all(b"\n")?;
        }
        if odd.below(if generator.module.n <= 2 { 25 } else { 250 }) == 0 {
            writeln!(out, "state")?;
        }
    }
    writeln!(out, "state")?;
    out.flush()
}

/// Generated events in memory, as one row of lists.
pub fn lists(seed: u64, count: usize) -> Vec<Vec<Event>> {
    let mut generator = Generator::new(seed);
    let mut lists: Vec<Vec<Event>> = Vec::new();
    for _ in 0..count {
        let event = generator.next_event();
        if matches!(event, Event::Start { .. }) {
            lists.push(Vec::new());
        }
        lists
            .last_mut()
            .expect("a trace begins with start")
            .push(event);
    }
    lists
}
