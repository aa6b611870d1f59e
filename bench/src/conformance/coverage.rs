//! What the cases cover: answers by job and group, results of events, and the
//! limits and rules that own cases are for.

mod rows;

use std::collections::BTreeMap;
use std::fmt;

use crate::answer::Answer;
use crate::gen::Case;
use crate::reading::{Group, Head, Refusal};
use crate::tally::Reached;
use rows::{LIMITS, RULES};

const COLUMNS: [&str; 9] = [
    "check",
    "newer",
    "translate install",
    "translate boot",
    "run install",
    "run boot",
    "program install",
    "program boot",
    "head",
];
const NEWER: &[usize] = &[1];
const TRANSLATIONS: &[usize] = &[2, 3];
const CHECKED: &[usize] = &[0, 2, 3, 4, 5];
const RUNS: &[usize] = &[4, 5, 6, 7];
const INSTALLS: &[usize] = &[4, 6];
const BOOTS: &[usize] = &[5, 7];
const PROGRAMS: &[usize] = &[6, 7];
const HEADS: &[usize] = &[8];
const RESULTS: [u8; 9] = [0, 1, 32, 33, 34, 35, 36, 37, 38];

#[derive(Default)]
pub struct Coverage {
    answers: BTreeMap<Reached, [u64; COLUMNS.len()]>,
    results: BTreeMap<u8, u64>,
    shown: BTreeMap<&'static str, u64>,
}

impl Coverage {
    pub fn add(&mut self, case: &Case, answer: &Answer) {
        self.count(column(case), Reached::by(answer));
        if let Answer::Run { answer, trace, .. } = answer {
            for event in trace.chunks(8).take(answer.events) {
                *self.results.entry(event[6]).or_default() += 1;
            }
        }
    }

    pub fn add_head(&mut self, answer: Result<Head, Refusal>) {
        let reached = match answer {
            Ok(_) => Reached::Accepted,
            Err(refusal) => Reached::Refused(refusal.number.into()),
        };
        self.count(HEADS[0], reached);
    }

    fn count(&mut self, column: usize, reached: Reached) {
        self.answers.entry(reached).or_default()[column] += 1;
    }

    /// Counts a case for what it shows.
    pub fn show(&mut self, shows: &'static str) {
        *self.shown.entry(shows).or_default() += 1;
    }

    /// What must be there and is not, and what is there under no known name.
    pub fn missing(&self) -> Vec<String> {
        let mut missing = Vec::new();
        for (reached, columns) in required() {
            let counts = self.answers.get(&reached).copied().unwrap_or_default();
            let none = columns.iter().filter(|&&column| counts[column] == 0);
            missing.extend(none.map(|&column| format!("{}: {reached}", COLUMNS[column])));
        }
        let results = RESULTS
            .iter()
            .filter(|result| !self.results.contains_key(result));
        missing.extend(results.map(|result| format!("event with result {result}")));
        let known = || LIMITS.iter().chain(&RULES);
        let rows = known().filter(|row| !self.shown.contains_key(*row));
        missing.extend(rows.map(|row| row.to_string()));
        let unknown = self
            .shown
            .keys()
            .filter(|shows| !known().any(|row| row == *shows));
        missing.extend(unknown.map(|shows| format!("row for: {shows}")));
        missing
    }
}

/// The answers that must be there, each with its columns.
fn required() -> Vec<(Reached, &'static [usize])> {
    let mut rows = vec![
        (Reached::Accepted, &CHECKED[..3]),
        (Reached::Accepted, HEADS),
        (Reached::Refused(65), HEADS),
    ];
    for reached in [Reached::First, Reached::Second, Reached::Neither] {
        rows.push((reached, NEWER));
    }
    for number in 64..=74 {
        rows.push((Reached::Refused(number), CHECKED));
    }
    for number in 80..=86 {
        let columns = if number == 81 { INSTALLS } else { RUNS };
        rows.push((Reached::Refused(number), columns));
    }
    rows.push((Reached::Refused(96), TRANSLATIONS));
    rows.push((Reached::Refused(97), PROGRAMS));
    for end in [0, 1, 2, 32, 33, 34, 35, 36, 37, 38] {
        let columns = match end {
            34 | 35 => INSTALLS,
            2 | 38 => BOOTS,
            _ => RUNS,
        };
        rows.push((Reached::End(end), columns));
    }
    rows
}

fn column(case: &Case) -> usize {
    let by_group = |boot| usize::from(boot);
    match case {
        Case::Check { .. } => 0,
        Case::Newer { .. } => 1,
        Case::Translate { group, .. } => 2 + by_group(*group == Group::Boot),
        Case::Run { group, .. } => 4 + by_group(*group == Group::Boot),
        Case::RunProgram { program, .. } => 6 + by_group(program.get(3) == Some(&1)),
    }
}

impl fmt::Display for Coverage {
    fn fmt(&self, f: &mut fmt::Formatter) -> fmt::Result {
        writeln!(f, "| answer | {} |", COLUMNS.join(" | "))?;
        writeln!(f, "|---|{}", "---:|".repeat(COLUMNS.len()))?;
        for (reached, counts) in &self.answers {
            let counts: Vec<String> = counts.iter().map(u64::to_string).collect();
            writeln!(f, "| {reached} | {} |", counts.join(" | "))?;
        }
        writeln!(f, "\n| result of an event | events |\n|---|---:|")?;
        for (result, count) in &self.results {
            writeln!(f, "| {result} | {count} |")?;
        }
        for (title, rows) in [("limit", &LIMITS[..]), ("rule", &RULES[..])] {
            writeln!(f, "\n| {title} | own cases |\n|---|---:|")?;
            for row in rows {
                let count = self.shown.get(row).copied().unwrap_or_default();
                writeln!(f, "| {row} | {count} |")?;
            }
        }
        Ok(())
    }
}
