//! Cases and answers in their text form.

mod parse;
mod show;

pub use parse::parse;
pub use show::show;

use std::borrow::Cow;
use std::fs;
use std::io;
use std::path::Path;
use std::process::Command;

use crate::answer;
use crate::jobs::Reading;

/// Whose vectors are written so.
#[derive(Clone, Copy, Debug, PartialEq, Eq)]
pub enum Form {
    /// Those of document 01, and the cases of this repository.
    Document01,
    /// Those of document 02: the byte that fills a trace is in hex, and newer
    /// is answered with `part`.
    Document02,
}

impl Form {
    /// A written answer as `show` writes it.
    pub fn shown(self, line: &str) -> Cow<'_, str> {
        let words: Vec<&str> = line.split(' ').collect();
        match (self, &words[..]) {
            (Form::Document02, ["part", which, from, to]) => {
                format!("({which}, {from}, {to})").into()
            }
            _ => line.into(),
        }
    }
}

/// A file of cases and one of answers.
#[derive(Clone, Debug, Default)]
pub struct Written {
    pub cases: String,
    pub answers: String,
}

impl Written {
    pub fn read(cases: &Path, answers: &Path) -> io::Result<Self> {
        Ok(Written {
            cases: read(cases)?,
            answers: read(answers)?,
        })
    }

    /// Cases with their answers: line by line, without comments.
    pub fn pairs(&self) -> Result<Vec<(&str, &str)>, String> {
        pairs(&self.cases, &self.answers)
    }
}

/// A text file, which gzip unpacks where its name ends in gz.
fn read(path: &Path) -> io::Result<String> {
    if path.extension().is_none_or(|ending| ending != "gz") {
        return fs::read_to_string(path);
    }
    let unpacked = Command::new("gzip").arg("-dc").arg(path).output()?;
    if !unpacked.status.success() {
        return Err(io::Error::other(String::from_utf8_lossy(&unpacked.stderr)));
    }
    String::from_utf8(unpacked.stdout).map_err(io::Error::other)
}

/// The reading's answer to a case, or nothing where the case cannot be read.
pub fn answer(case: &str, form: Form) -> Option<String> {
    let case = parse(case, form)?;
    let shown = show(&case, &answer::answer(&Reading, &case));
    Some(shown.unwrap_or_else(str::to_string))
}

/// Cases with their answers: line by line, without comments.
pub fn pairs<'t>(cases: &'t str, answers: &'t str) -> Result<Vec<(&'t str, &'t str)>, String> {
    let (cases, answers) = (lines(cases), lines(answers));
    if cases.len() != answers.len() {
        return Err(format!("{} cases, {} answers", cases.len(), answers.len()));
    }
    Ok(cases.into_iter().zip(answers).collect())
}

fn lines(text: &str) -> Vec<&str> {
    let lines = text.lines();
    lines.filter(|line| !line.starts_with('#')).collect()
}
