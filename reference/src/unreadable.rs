//! The unreadable lines of a trace: the first few by their numbers, and how many there are.

/// So many are named.
const NAMED: usize = 6;

#[derive(Clone, PartialEq, Eq, Debug, Default)]
pub struct Unreadable {
    first: Vec<u64>,
    count: u64,
}

impl Unreadable {
    pub fn add(&mut self, number: u64) {
        self.count += 1;
        if self.first.len() < NAMED {
            self.first.push(number);
        }
    }

    pub fn any(&self) -> bool {
        self.count > 0
    }

    /// As `2 unreadable lines (4, 9)`; of more than are named, three dots stand for the rest.
    pub fn told(&self) -> String {
        let numbers: Vec<String> = self.first.iter().map(u64::to_string).collect();
        let rest = if self.count > NAMED as u64 {
            ", ..."
        } else {
            ""
        };
        let plural = if self.count == 1 { "" } else { "s" };
        let count = self.count;
        format!(
            "{count} unreadable line{plural} ({}{rest})",
            numbers.join(", ")
        )
    }
}
