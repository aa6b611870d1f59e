//! How the inputs were spread over the possible answers.

use std::collections::BTreeMap;
use std::fmt;

use crate::answer::{Answer, NewerAnswer};
use crate::gen::Job;

/// What an answer says, apart from its details.
#[derive(Clone, Copy, Debug, PartialEq, Eq, PartialOrd, Ord)]
pub enum Reached {
    Accepted,
    First,
    Second,
    Neither,
    End(usize),
    Refused(usize),
}

impl Reached {
    pub fn by(answer: &Answer) -> Self {
        match answer {
            Answer::Check(answer) => Reached::or(answer.refusal, Reached::Accepted),
            Answer::Newer(NewerAnswer { to: 0, .. }) => Reached::Neither,
            Answer::Newer(NewerAnswer { second: 0, .. }) => Reached::First,
            Answer::Newer(_) => Reached::Second,
            Answer::Translate { answer, .. } => Reached::or(answer.refusal, Reached::Accepted),
            Answer::Run { answer, .. } => Reached::or(answer.refusal, Reached::End(answer.end)),
        }
    }

    fn or(refusal: usize, otherwise: Reached) -> Self {
        match refusal {
            0 => otherwise,
            number => Reached::Refused(number),
        }
    }
}

impl fmt::Display for Reached {
    fn fmt(&self, f: &mut fmt::Formatter) -> fmt::Result {
        match self {
            Reached::Accepted => f.write_str("accepted"),
            Reached::First => f.write_str("first"),
            Reached::Second => f.write_str("second"),
            Reached::Neither => f.write_str("neither"),
            Reached::End(number) => write!(f, "end {number}"),
            Reached::Refused(number) => write!(f, "refused {number}"),
        }
    }
}

#[derive(Clone, Debug, Default)]
pub struct Tally {
    counts: BTreeMap<Reached, [u64; Job::ALL.len()]>,
}

impl Tally {
    pub fn add(&mut self, job: Job, answer: &Answer) {
        let counts = self.counts.entry(Reached::by(answer)).or_default();
        counts[job as usize] += 1;
    }

    pub fn count(&self, job: Job, reached: Reached) -> u64 {
        self.counts
            .get(&reached)
            .map_or(0, |counts| counts[job as usize])
    }

    fn total(&self, job: Job) -> u64 {
        self.counts
            .values()
            .map(|counts| counts[job as usize])
            .sum()
    }
}

impl fmt::Display for Tally {
    fn fmt(&self, f: &mut fmt::Formatter) -> fmt::Result {
        writeln!(f, "| answer | check | newer | translate | run | program |")?;
        writeln!(f, "|---|---:|---:|---:|---:|---:|")?;
        for (reached, counts) in &self.counts {
            write!(f, "| {reached} |")?;
            for count in counts {
                write!(f, " {count} |")?;
            }
            writeln!(f)?;
        }
        write!(f, "| all |")?;
        for job in Job::ALL {
            write!(f, " {} |", self.total(job))?;
        }
        writeln!(f)
    }
}
