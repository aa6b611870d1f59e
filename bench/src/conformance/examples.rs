//! The examples of source document 004 with their written answers.

use crate::gen::Case;
use crate::vectors::{self, Form};

const EXAMPLES: &str = include_str!("../../../tools/examples-004.txt");
const CASES: &str = include_str!("../../../tools/examples-004-cases.txt");
const ANSWERS: &str = include_str!("../../../tools/examples-004-answers.txt");

pub fn examples() -> Result<Vec<(Case, &'static str)>, String> {
    if let Some(number) = unchecked() {
        return Err(format!("example {number} is not checked"));
    }
    let pairs = vectors::pairs(CASES, ANSWERS)?;
    let parse = |(case, answer): (&str, _)| {
        let parsed = vectors::parse(&filled_in(case), Form::Document01);
        let case = parsed.ok_or(format!("not a case: {case}"))?;
        Ok((case, answer))
    };
    pairs.into_iter().map(parse).collect()
}

/// The number and the bytes of each example.
fn numbered() -> impl Iterator<Item = (&'static str, &'static str)> {
    let lines = EXAMPLES.lines().filter(|line| !line.starts_with('#'));
    lines.filter_map(|line| {
        let mut parts = line.split(' ');
        Some((parts.next()?, parts.nth(1)?))
    })
}

/// An example whose check is no case.
fn unchecked() -> Option<&'static str> {
    let checked = |number: &str| {
        let check = format!("check @{number}");
        CASES.lines().any(|case| case == check)
    };
    numbered().map(|(number, _)| number).find(|n| !checked(n))
}

/// The case with the bytes of example N in the place of @N.
fn filled_in(case: &str) -> String {
    let fields: Vec<&str> = case.split(' ').map(|f| bytes_of(f).unwrap_or(f)).collect();
    fields.join(" ")
}

fn bytes_of(field: &str) -> Option<&'static str> {
    let wanted = field.strip_prefix('@')?;
    let (_, bytes) = numbered().find(|(number, _)| *number == wanted)?;
    Some(bytes)
}
