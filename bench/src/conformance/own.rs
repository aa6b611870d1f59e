//! Cases at each limit of documents 01 and 02 and for each of their rules, with
//! what the answer must be one of.

mod admission;
mod common;
mod conditions;
mod faults;
mod heads;
mod images;
mod limits;
mod malformed;
mod nesting;
mod newer;
mod programs;
mod reader;
mod room;
mod scene;
mod setting;
mod table;
#[cfg(test)]
mod tests;
mod values;
mod weight;

pub use reader::{own_heads, OwnHead};

use crate::gen::Case;
use crate::tally::Reached;

#[derive(Clone, Debug)]
pub struct Own {
    /// The limit or rule that the case is for.
    pub shows: &'static str,
    /// What the answer must be; nothing where only the reading tells.
    pub wanted: Option<Reached>,
    pub case: Case,
}

impl Own {
    fn new(shows: &'static str, wanted: Reached, case: Case) -> Self {
        Own {
            shows,
            wanted: Some(wanted),
            case,
        }
    }
}

pub fn own() -> Vec<Own> {
    [
        limits::cases(),
        weight::cases(),
        values::cases(),
        faults::cases(),
        table::cases(),
        heads::cases(),
        newer::cases(),
        room::cases(),
        admission::cases(),
        conditions::cases(),
        common::cases(),
        images::cases(),
        nesting::cases(),
        programs::cases(),
        malformed::cases(),
    ]
    .concat()
}
