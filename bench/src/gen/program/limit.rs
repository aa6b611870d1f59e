use super::record::{Program, Record};
use super::written::{command, empty, entry, forward};
use super::{model, pool, Rng};
use crate::reading::limits;

const START: usize = 11;
const COMPONENT: usize = 4 + limits::IDENTIFIER_BYTES;
const RECORD_HEAD: usize = 10;
const LARGEST_RECORD: usize = RECORD_HEAD + 141;
const TWO_RECORDS: usize = LARGEST_RECORD + RECORD_HEAD + 43;
const JUMPS: usize = limits::RECORDS - limits::COMMANDS;

/// The length of the longest well-formed program.
pub const LONGEST: usize = START
    + limits::COMPONENTS * COMPONENT
    + limits::COMMANDS * LARGEST_RECORD
    + JUMPS * RECORD_HEAD;

/// 1,024 records or one more, 256 commands among them or one more.
pub fn many_records(rng: &mut Rng) -> Program {
    let program = empty(rng);
    let (count, commands) = rng.pick(&[
        (1023, 256),
        (1024, 256),
        (1024, 257),
        (1025, 256),
        (256, 256),
        (257, 257),
    ]);
    of_records(rng, program, count, commands)
}

/// The program with this many records, and this many commands among them.
pub fn of_records(rng: &mut Rng, mut program: Program, count: usize, commands: usize) -> Program {
    while program.records.len() < count {
        let number = program.records.len();
        let record = if commands - program.commands() < count - number && rng.percent(60) {
            Record::jump(forward(rng, number, count))
        } else if program.commands() < commands {
            command(rng, model::SET_COMPONENT_INDEX as u8, 0, Vec::new())
        } else {
            Record::jump(number + 1)
        };
        program.records.push(record);
    }
    program
}

/// The longest program, others of many bytes, or ones at the limit of bytes,
/// which have too many commands.
pub fn many_bytes(rng: &mut Rng) -> Program {
    let program = empty(rng);
    let wanted = match rng.below(4) {
        0 => return longest(rng, program),
        1 => rng.within(32_000..=38_000),
        _ => limits::PROGRAM_BYTES + rng.below(2),
    };
    of_bytes(rng, program, wanted)
}

/// The longest program of this group and number: as many of the largest
/// records as there may be, and jumps among them.
pub fn longest(rng: &mut Rng, program: Program) -> Program {
    let identifiers = (0..limits::COMPONENTS as u8).map(|k| vec![k; limits::IDENTIFIER_BYTES]);
    let mut kinds = [vec![true; limits::COMMANDS], vec![false; JUMPS]].concat();
    rng.shuffle(&mut kinds);
    let record = |(number, command): (usize, bool)| {
        if command {
            largest_record(rng)
        } else {
            Record::jump(number + 1)
        }
    };
    Program {
        identifiers: identifiers.collect(),
        records: kinds.into_iter().enumerate().map(record).collect(),
        ..program
    }
}

fn largest_record(rng: &mut Rng) -> Record {
    let argument = sized_argument(rng, LARGEST_RECORD - RECORD_HEAD);
    command(rng, model::SET_PARAMETERS as u8, 0, argument)
}

/// The program with records up to this many bytes.
pub fn of_bytes(rng: &mut Rng, mut program: Program, wanted: usize) -> Program {
    let mut left = wanted - program.encode().len();
    while left > 0 {
        let length = if left >= TWO_RECORDS {
            LARGEST_RECORD
        } else if left > LARGEST_RECORD {
            left / 2
        } else {
            left
        };
        let argument = sized_argument(rng, length - RECORD_HEAD);
        let code = model::SET_PARAMETERS as u8;
        program.records.push(command(rng, code, 0, argument));
        left -= length;
    }
    program
}

/// A parameter argument of this many bytes, 43 to 141.
fn sized_argument(rng: &mut Rng, length: usize) -> Vec<u8> {
    let digest = entry(model::DIGEST, &pool::digest(rng));
    let size = entry(model::SIZE, &pool::size(rng).to_be_bytes());
    let mut rest = [digest, size].concat();
    if length > rest.len() + 2 + limits::URI_BYTES {
        rest = [entry(model::SOURCE, &[0]), rest].concat();
    }
    let uri = rng.bytes(length - rest.len() - 2);
    [entry(model::URI, &uri), rest].concat()
}
