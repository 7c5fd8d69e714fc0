//! The sums of a trace (13.88), as rows for people. A trace is one list after another,
//! each from its `start`; what stands before the first meets the stopped module (3.6).

use std::io::{BufRead, Result};

use crate::book::Book;
use crate::demand3::Gate;
use crate::events::{Answer, Event};
use crate::lines::Lines;
use crate::state::{Item, Module};
use crate::sums::{Counts, Rules, Sums};
use crate::trace::{read, Line};
use crate::unreadable::Unreadable;

pub struct Report {
    pub text: String,
    /// Both sides meet and what waits is what is pending, in every row.
    pub meets: bool,
    /// Of the whole trace; what they should have said is not counted.
    pub unreadable: Unreadable,
}

impl Report {
    pub fn can_be_trusted(&self) -> bool {
        self.meets && !self.unreadable.any()
    }
}

/// One list: its module, its counts, and how many events it has; its start is none of them (1.3).
/// An unreadable line may have been any event of it, or the start of another list.
struct List {
    name: String,
    events: u64,
    unreadable: Unreadable,
    module: Module,
    sums: Sums,
}

/// One line of numbers: requests, returns, merged, presented, handed back, pending.
#[derive(Clone, Copy, Default)]
struct Row {
    numbers: [u64; 6],
    waits: u64,
}

impl Row {
    fn new(counts: &Counts, pending: bool) -> Row {
        let c = counts;
        let counted = [c.requests, c.returns, c.merged, c.presented, c.handed_back];
        let mut numbers = [u64::from(pending); 6];
        numbers[..5].copy_from_slice(&counted);
        Row {
            numbers,
            waits: u64::from(c.waits),
        }
    }

    fn add(&mut self, other: &Row) {
        for (sum, number) in self.numbers.iter_mut().zip(other.numbers) {
            *sum += number;
        }
        self.waits += other.waits;
    }

    fn is_empty(&self) -> bool {
        self.numbers.iter().all(|&number| number == 0) && self.waits == 0
    }

    fn sides(&self) -> (u64, u64) {
        let (came, went) = self.numbers.split_at(2);
        (came.iter().sum(), went.iter().sum())
    }

    fn meets(&self) -> bool {
        let (came, went) = self.sides();
        came == went && self.waits == self.numbers[5]
    }

    fn verdict(&self, whole: bool) -> String {
        let (came, went) = self.sides();
        if came != went {
            format!("DIFFERS: {came} and {went}")
        } else if !self.meets() {
            format!("DIFFERS: {} waits", self.waits)
        } else if !whole {
            "meets as far as read".to_string()
        } else {
            "meets".to_string()
        }
    }

    /// `whole` says whether all lines of the list could be read.
    fn text(&self, vcpu: u32, name: &str, whole: bool) -> String {
        let [requests, returns, merged, presented, handed_back, pending] = self.numbers;
        format!(
            "{vcpu:>4}  {name:<20}  {requests:>8}  {returns:>7}  {merged:>6}  {presented:>9}  \
             {handed_back:>11}  {pending:>7}  {}\n",
            self.verdict(whole)
        )
    }
}

const HEADING: &str = "vCPU  item                  requests  returns  merged  presented  \
                       handed back  pending\n";

/// In rising order of the numbers that stand for them.
fn in_order() -> impl Iterator<Item = Item> {
    [Item::Nmi, Item::MachineCheck]
        .into_iter()
        .chain((0..256).map(Item::Vector))
}

fn name(item: Item) -> String {
    match item {
        Item::Nmi => "0x2 (NMI)".to_string(),
        Item::MachineCheck => "0x12 (machine check)".to_string(),
        Item::Vector(v) => format!("{v:#x}"),
    }
}

impl List {
    /// On what a start gave, or on the stopped module.
    fn new(name: String, module: Module) -> List {
        List {
            name,
            events: 0,
            unreadable: Unreadable::default(),
            sums: Sums::new(Book::of(&module), module.vmpl, Rules::RIGHT),
            module,
        }
    }

    fn started(number: u64, gate: Gate, n: u32, vmpl: u32) -> List {
        let mut module = Module::refused();
        let refused = match gate(&mut module, &mut Event::Start { n, vmpl }) {
            Answer::Start(Err(_)) => " (start refused)",
            _ => "",
        };
        List::new(
            format!("list {number}: n {n}, VMPL {vmpl}{refused}"),
            module,
        )
    }

    fn play(&mut self, gate: Gate, event: &Event) {
        let answer = gate(&mut self.module, &mut event.clone());
        self.events += 1;
        self.sums
            .count(event, &answer)
            .expect("what is returned was presented");
    }

    fn rows(&self, vcpu: u32) -> Vec<(Item, Row)> {
        let record = self.module.record(vcpu);
        let row = |item| Row::new(&self.sums.counts(vcpu, item), record.has_pending(item));
        in_order()
            .map(|item| (item, row(item)))
            .filter(|(_, row)| !row.is_empty())
            .collect()
    }

    /// The rows of all items, then the totals, of the vCPUs that have any.
    fn report(&self, into: &mut Report) {
        let (mut items, mut totals) = (String::new(), String::new());
        let whole = !self.unreadable.any();
        for vcpu in 0..self.sums.book.n {
            let rows = self.rows(vcpu);
            let mut total = Row::default();
            for (item, row) in &rows {
                items += &row.text(vcpu, &name(*item), whole);
                total.add(row);
                into.meets &= row.meets();
            }
            if !rows.is_empty() {
                totals += &total.text(vcpu, "all items", whole);
            }
        }
        into.text += &self.heading(items.is_empty());
        if !items.is_empty() {
            into.text += &format!("\n{HEADING}{items}\n{totals}");
        }
    }

    fn heading(&self, empty: bool) -> String {
        let plural = if self.events == 1 { "" } else { "s" };
        let nothing = if empty { ": nothing was counted" } else { "" };
        let heading = format!("{}, {} event{plural}{nothing}\n", self.name, self.events);
        match self.unreadable.any() {
            true => format!("{heading}NOT TO BE TRUSTED: {}\n", self.unreadable.told()),
            false => heading,
        }
    }
}

pub fn report(trace: impl BufRead, gate: Gate) -> Result<Report> {
    let mut lines = Lines::new(trace);
    let mut line = Vec::new();
    let mut list = List::new("before the first start".to_string(), Module::refused());
    let mut number = 0;
    let mut report = Report {
        text: String::new(),
        meets: true,
        unreadable: Unreadable::default(),
    };
    while lines.next(&mut line)? {
        match read(&line) {
            Line::Event(Event::Start { n, vmpl }) => {
                end(&list, number, &mut report);
                number += 1;
                list = List::started(number, gate, n, vmpl);
            }
            Line::Event(event) => list.play(gate, &event),
            Line::Unreadable => {
                list.unreadable.add(lines.number);
                report.unreadable.add(lines.number);
            }
            Line::PassedOver | Line::State | Line::Ask(_) => {}
        }
    }
    end(&list, number, &mut report);
    Ok(report)
}

/// Before the first start there may be nothing to tell.
fn end(list: &List, number: u64, report: &mut Report) {
    if number == 0 && list.events == 0 && !list.unreadable.any() {
        return;
    }
    if !report.text.is_empty() {
        report.text += "\n";
    }
    list.report(report);
}
