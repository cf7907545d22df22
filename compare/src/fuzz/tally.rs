//! What was tried: a count for each entry and refusal number.

use super::Listed;
use std::fmt::{self, Display, Formatter};

/// All that a function could return.
const NUMBERS: usize = 256;

pub struct Tally {
    rows: Vec<(Listed, [u64; NUMBERS])>,
}

impl Tally {
    pub fn new(entries: &[Listed]) -> Tally {
        let rows = entries.iter().map(|entry| (*entry, [0; NUMBERS])).collect();
        Tally { rows }
    }

    pub fn add(&mut self, calls: &[(&'static str, u8)]) {
        for (name, number) in calls {
            let row = self.rows.iter_mut().find(|(entry, _)| entry.name == *name);
            let (_, counts) = row.expect("an entry that is listed");
            counts[usize::from(*number)] += 1;
        }
    }

    pub fn calls(&self) -> u64 {
        self.rows.iter().map(|(_, counts)| total(counts)).sum()
    }

    /// How often an entry gave a number.
    pub fn count(&self, name: &str, number: u8) -> u64 {
        let row = self.rows.iter().find(|(entry, _)| entry.name == name);
        row.map_or(0, |(_, counts)| counts[usize::from(number)])
    }

    /// The entries and the numbers of theirs, 0 too, that never came.
    pub fn never_met(&self) -> Vec<(&'static str, u8)> {
        self.rows
            .iter()
            .flat_map(|(entry, counts)| {
                let due = (0..=u8::MAX).filter(|number| can_give(entry, *number));
                let never = due.filter(|number| counts[usize::from(*number)] == 0);
                never.map(|number| (entry.name, number))
            })
            .collect()
    }

    /// The numbers from 0 to the last that an entry can give or gave.
    fn numbers(&self) -> usize {
        let shown = |(entry, counts): &(Listed, [u64; NUMBERS])| {
            let known = |number: &usize| counts[*number] > 0 || can_give(entry, *number as u8);
            (0..NUMBERS).rfind(known)
        };
        self.rows
            .iter()
            .filter_map(shown)
            .max()
            .map_or(0, |last| last + 1)
    }
}

fn total(counts: &[u64]) -> u64 {
    counts.iter().sum()
}

fn can_give(entry: &Listed, number: u8) -> bool {
    number == 0 || entry.order.contains(&number)
}

/// A table with a row for each entry, blank where its order does not have the number.
impl Display for Tally {
    fn fmt(&self, to: &mut Formatter) -> fmt::Result {
        let numbers = self.numbers();
        let rows = self.rows.iter();
        let table: Vec<Vec<String>> = [heads(numbers)]
            .into_iter()
            .chain(rows.map(|(entry, counts)| cells(entry, &counts[..numbers])))
            .collect();
        let width = |column: usize| table.iter().map(|row| row[column].len()).max();
        let widths: Vec<usize> = (0..table[0].len()).filter_map(width).collect();
        for row in &table {
            write!(to, "{:<1$}", row[0], widths[0])?;
            for (cell, width) in row.iter().zip(&widths).skip(1) {
                write!(to, " {cell:>width$}")?;
            }
            writeln!(to)?;
        }
        Ok(())
    }
}

fn heads(numbers: usize) -> Vec<String> {
    let numbers = (0..numbers).map(|number| number.to_string());
    let (first, last) = ("calls by number".to_string(), "all".to_string());
    [first].into_iter().chain(numbers).chain([last]).collect()
}

fn cells(entry: &Listed, counts: &[u64]) -> Vec<String> {
    let blank = |number: usize| counts[number] == 0 && !can_give(entry, number as u8);
    let cell = |number: usize| match blank(number) {
        true => String::new(),
        false => counts[number].to_string(),
    };
    let (first, last) = (entry.name.to_string(), total(counts).to_string());
    let numbers = (0..counts.len()).map(cell);
    [first].into_iter().chain(numbers).chain([last]).collect()
}
