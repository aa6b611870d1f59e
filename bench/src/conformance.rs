//! The cases that the program `conformance` answers, and their answers.

mod coverage;
mod examples;
pub mod form;
mod head;
mod moved;
pub mod own;
mod sheet;
#[cfg(test)]
mod tests;

pub use coverage::Coverage;

use crate::answer::{answer, Answer};
use crate::gen::Case;
use crate::jobs::Reading;
use crate::tally::Reached;
use crate::vectors::{parse, show, Form, Written};
use form::Asked;
use moved::Reason;
use own::{Own, OwnHead};

/// Where a case comes from.
#[derive(Clone, Copy, Debug)]
pub enum Origin {
    /// Vectors of document 02, with their answers.
    Stage,
    /// Vectors of document 01 whose answers still hold.
    Older,
    /// Vectors of document 01 that a request moved.
    Moved,
    Examples,
    Sheet,
    Own,
}

/// The two files as they grow, and what they cover.
#[derive(Default)]
pub struct Collection {
    pub stdin: Vec<u8>,
    pub stdout: String,
    pub coverage: Coverage,
    counts: [usize; 6],
}

impl Collection {
    /// The cases of this repository alone.
    pub fn new() -> Result<Self, String> {
        let mut collection = Collection::default();
        collection.add_repository()?;
        Ok(collection)
    }

    /// The vectors of the stage, the older ones, then the cases of this
    /// repository.
    pub fn with_vectors(stage: &Written, older: &Written) -> Result<Self, String> {
        let mut collection = Collection::default();
        for (text, line) in stage.pairs()? {
            let case = parsed(text, Form::Document02)?;
            collection.add_written(Origin::Stage, &case, &Form::Document02.shown(line))?;
        }
        for (number, (text, line)) in (1..).zip(older.pairs()?) {
            let case = parsed(text, Form::Document01)?;
            match moved::moved(number) {
                None => collection.add_written(Origin::Older, &case, line)?,
                Some(reason) => collection.add_moved(&case, line, reason)?,
            }
        }
        collection.add_repository()?;
        Ok(collection)
    }

    pub fn count(&self, origin: Origin) -> usize {
        self.counts[origin as usize]
    }

    /// Reads the cases back from their form and answers them again.
    pub fn read_back(&self) -> Result<(), String> {
        let cases = form::decode(&self.stdin).ok_or("cases that do not read back")?;
        let mut stdout = String::new();
        for case in &cases {
            stdout += &match case {
                Asked::Job(case) => show(case, &answer(&Reading, case))?,
                Asked::Head(case) => case.show(),
            };
            stdout.push('\n');
        }
        let same = stdout == self.stdout;
        same.then_some(())
            .ok_or("cases that read back as others".into())
    }

    fn add_repository(&mut self) -> Result<(), String> {
        for (case, line) in examples::examples()? {
            self.add_written(Origin::Examples, &case, line)?;
        }
        for (text, line) in sheet::sheet() {
            let case = parsed(&text, Form::Document01)?;
            self.add_written(Origin::Sheet, &case, &line)?;
        }
        own::own().iter().try_for_each(|own| self.add_own(own))?;
        let heads = own::own_heads();
        heads.iter().try_for_each(|own| self.add_head(own))
    }

    /// Adds a case whose answer is written.
    fn add_written(&mut self, origin: Origin, case: &Case, line: &str) -> Result<(), String> {
        let answer = answer(&Reading, case);
        let found = show(case, &answer)?;
        if found != line {
            return Err(format!("{case:?}\nwritten: {line}\nreading: {found}"));
        }
        self.put(origin, case, &answer, line)
    }

    /// Adds a case whose written answer must no longer hold, with the one that does.
    fn add_moved(&mut self, case: &Case, line: &str, reason: Reason) -> Result<(), String> {
        let answer = answer(&Reading, case);
        let found = show(case, &answer)?;
        if found == line || !reason.explains(&found) {
            return Err(format!("{case:?}\nnot moved by {reason:?}: {found}"));
        }
        self.put(Origin::Moved, case, &answer, &found)
    }

    fn add_own(&mut self, own: &Own) -> Result<(), String> {
        let answer = answer(&Reading, &own.case);
        let reached = Reached::by(&answer);
        if own.wanted.is_some_and(|wanted| wanted != reached) {
            let case = &own.case;
            return Err(format!(
                "{}: {reached}, not {:?}\n{case:?}",
                own.shows, own.wanted
            ));
        }
        let line = show(&own.case, &answer)?;
        self.put(Origin::Own, &own.case, &answer, &line)?;
        self.coverage.show(own.shows);
        Ok(())
    }

    fn add_head(&mut self, own: &OwnHead) -> Result<(), String> {
        let OwnHead {
            shows,
            wanted,
            case,
        } = own;
        let line = case.show();
        if line != *wanted {
            return Err(format!("{shows}: {line}, not {wanted}\n{case:?}"));
        }
        let bytes = form::encode_head(case).ok_or(format!("{shows}: not in the form"))?;
        self.write(Origin::Own, bytes, &line);
        self.coverage.add_head(case.answer());
        self.coverage.show(shows);
        Ok(())
    }

    fn put(
        &mut self,
        origin: Origin,
        case: &Case,
        answer: &Answer,
        line: &str,
    ) -> Result<(), String> {
        let bytes = form::encode(case).ok_or(format!("{case:?}\nnot in the form"))?;
        self.write(origin, bytes, line);
        self.coverage.add(case, answer);
        Ok(())
    }

    fn write(&mut self, origin: Origin, bytes: Vec<u8>, line: &str) {
        self.stdin.extend(bytes);
        self.stdout += line;
        self.stdout.push('\n');
        self.counts[origin as usize] += 1;
    }
}

fn parsed(text: &str, form: Form) -> Result<Case, String> {
    parse(text, form).ok_or(format!("not a case: {text}"))
}
