//! Cases that ask for the head at a place of an envelope.

use crate::reading::{head_at, Head, Refusal};

#[derive(Clone, Debug)]
pub struct HeadCase {
    pub place: u16,
    pub envelope: Vec<u8>,
}

impl HeadCase {
    pub fn answer(&self) -> Result<Head, Refusal> {
        head_at(&self.envelope, self.place.into())
    }

    /// The answer as text, with how many bytes are left after the head.
    pub fn show(&self) -> String {
        match self.answer() {
            Ok(Head { kind, number, next }) => {
                let left = self.envelope.len() - next;
                format!("head {kind} {number} {next} {left}")
            }
            Err(Refusal { number, place }) => format!("refused {number} {place}"),
        }
    }
}
