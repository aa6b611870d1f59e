mod fault;
mod limit;
mod record;
mod written;

use super::damage::damage;
use super::envelope::envelope;
use super::{model, pool, Rng};
use crate::reading::{translate, Group};

pub use limit::{longest, of_bytes, of_records, LONGEST};
pub use record::{Program, Record, UNCAUGHT};
pub use written::entry;

/// A program's bytes, and what it holds where it is a good one.
#[derive(Clone, Debug)]
pub struct Encoded {
    pub bytes: Vec<u8>,
    pub group: Group,
    pub number: u32,
    pub identifiers: Vec<Vec<u8>>,
}

pub fn program(rng: &mut Rng) -> Encoded {
    match rng.below(100) {
        0..=49 => translated(rng),
        50..=59 => {
            let mut program = translated(rng);
            damage(rng, &mut program.bytes);
            program
        }
        60..=86 => encoded(written::written(rng)),
        87..=96 => encoded(fault::spoiled(rng)),
        97 => encoded(limit::many_records(rng)),
        98 => encoded(limit::many_bytes(rng)),
        _ => noise(rng),
    }
}

fn translated(rng: &mut Rng) -> Encoded {
    let group = rng.pick(&Group::BOTH);
    loop {
        let envelope = envelope(rng, 95);
        if let Ok(bytes) = translate(&envelope.bytes, group, usize::MAX) {
            return Encoded {
                bytes,
                group,
                number: envelope.number,
                identifiers: envelope.identifiers,
            };
        }
    }
}

fn encoded(program: Program) -> Encoded {
    Encoded {
        bytes: program.encode(),
        group: program.group,
        number: program.number,
        identifiers: program.identifiers,
    }
}

fn noise(rng: &mut Rng) -> Encoded {
    let mut program = encoded(written::empty(rng));
    let length = rng.below(program.bytes.len() + 1);
    let more = rng.below(40);
    program.bytes.truncate(length);
    program.bytes.extend(rng.bytes(more));
    program
}
