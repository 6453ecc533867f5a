// The tally of a comparison: how often each outcome was given. Those that have to occur stand in it
// from the start, so that one that never does is noticed.

use std::collections::BTreeMap;

/// The name of an outcome, and the document's number or a place where the name has one.
pub type Entry = (&'static str, Option<u64>);

pub struct Tally {
    times: BTreeMap<Entry, u64>,
}

impl Tally {
    pub fn requiring(outcomes: &[Entry]) -> Tally {
        Tally {
            times: outcomes.iter().map(|&outcome| (outcome, 0)).collect(),
        }
    }

    pub fn add(&mut self, name: &'static str) {
        self.add_times((name, None), 1);
    }

    pub fn add_number(&mut self, name: &'static str, number: u64) {
        self.add_times((name, Some(number)), 1);
    }

    pub fn add_times(&mut self, entry: Entry, times: u64) {
        *self.times.entry(entry).or_default() += times;
    }

    /// One line for each name, with its numbers one after the other.
    pub fn print(&self) {
        let mut lines: BTreeMap<&str, Vec<String>> = BTreeMap::new();
        for (&(name, number), times) in &self.times {
            let item = match number {
                Some(number) => format!("{number}: {times}"),
                None => times.to_string(),
            };
            lines.entry(name).or_default().push(item);
        }
        for (name, items) in lines {
            println!("{name}: {}", items.join(", "));
        }
    }

    /// The outcomes that never occurred, by name; nothing if each did.
    pub fn missing(&self) -> Option<String> {
        let never = self.times.iter().filter(|(_, &times)| times == 0);
        let names: Vec<String> = never.map(|(outcome, _)| words(outcome)).collect();
        if names.is_empty() {
            return None;
        }
        Some(names.join("; "))
    }
}

/// One outcome for each number.
pub fn numbered(name: &'static str, numbers: &[u64]) -> Vec<Entry> {
    let outcome = |&number| (name, Some(number));
    numbers.iter().map(outcome).collect()
}

fn words((name, number): &Entry) -> String {
    match number {
        Some(number) => format!("{name} {number}"),
        None => name.to_string(),
    }
}
