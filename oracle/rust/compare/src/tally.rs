//! What was compared, how it was answered, and what differs.

use crate::lent::Lent;
use std::collections::BTreeMap;

/// Differences that are printed.
const SHOWN: usize = 10;

#[derive(Default)]
pub struct Tally {
    number: usize,
    origins: BTreeMap<&'static str, usize>,
    answers: BTreeMap<(&'static str, u32), usize>,
    differences: usize,
}

impl Tally {
    pub fn begin(&mut self, number: usize, origin: &'static str) {
        self.number = number;
        *self.origins.entry(origin).or_default() += 1;
    }

    /// Holds one answer and all tables of its call to what is expected; after a refusal all are 0.
    pub fn judge(
        &mut self,
        call: &'static str,
        expected: u32,
        answered: u32,
        tables: &[(&str, &Lent, &[u32])],
    ) {
        *self.answers.entry((call, expected)).or_default() += 1;
        if answered != expected {
            self.differs(&format!("{call} answers {answered}, not {expected}"));
            return;
        }
        for (name, table, used) in tables {
            if !table.holds(if expected == 0 { used } else { &[] }) {
                self.differs(&format!("{call} (answer {expected}) leaves other words in {name}"));
                return;
            }
        }
    }

    fn differs(&mut self, what: &str) {
        self.differences += 1;
        if self.differences <= SHOWN {
            println!("graph {}: {what}", self.number);
        }
    }

    pub fn differ(&self) -> bool {
        self.differences > 0
    }

    pub fn print(&self) {
        for (origin, count) in &self.origins {
            println!("{count:9}  {origin}");
        }
        for ((call, number), count) in &self.answers {
            let answer =
                if *number == 0 { "answered".to_string() } else { format!("refused {number}") };
            println!("{count:9}  {call:16} {answer}");
        }
        println!("{:9}  calls", self.answers.values().sum::<usize>());
        println!("{:9}  differences", self.differences);
    }
}
