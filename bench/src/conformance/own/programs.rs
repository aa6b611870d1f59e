//! Programs at their limits, and ones that no envelope has.

use super::scene::run_program;
use super::setting::{Setting, NUMBER};
use super::Own;
use crate::gen::program::{entry, longest, of_bytes, of_records, Program, Record, UNCAUGHT};
use crate::gen::{model, pool, Rng};
use crate::reading::{limits, Group};
use crate::tally::Reached;

pub fn cases() -> Vec<Own> {
    [most_records(), most_bytes(), headers(), records()].concat()
}

pub fn empty(group: Group) -> Program {
    Program {
        group,
        number: NUMBER,
        identifiers: vec![b"one".to_vec(), b"two".to_vec()],
        records: Vec::new(),
    }
}

pub fn with(group: Group, records: Vec<Record>) -> Program {
    Program {
        records,
        ..empty(group)
    }
}

pub fn command(code: u32, target: u16, argument: &[u8]) -> Record {
    Record {
        code: code as u8,
        component: 0,
        place: 0x1234,
        target,
        argument: argument.to_vec(),
    }
}

/// A condition that fails, with its target.
pub fn failing(target: u16) -> Record {
    command(model::CLASS, target, &[9; 16])
}

pub fn index() -> Record {
    command(model::SET_COMPONENT_INDEX, UNCAUGHT, &[])
}

pub fn abort() -> Record {
    command(model::ABORT, UNCAUGHT, &[])
}

pub fn set(argument: &[u8]) -> Record {
    command(model::SET_PARAMETERS, UNCAUGHT, argument)
}

/// Run where a well-formed program is admitted.
pub fn run(shows: &'static str, wanted: Reached, program: &Program) -> Own {
    let setting = Setting::new(program.group, program.number, &program.identifiers);
    Own::new(shows, wanted, run_program(program.encode(), &setting))
}

fn good(shows: &'static str, end: usize, program: &Program) -> Own {
    run(shows, Reached::End(end), program)
}

pub fn bad(shows: &'static str, program: &Program) -> Own {
    run(shows, Reached::Refused(97), program)
}

fn most_records() -> Vec<Own> {
    let mut rng = Rng::new(1);
    let mut filled =
        |group, records, commands| of_records(&mut rng, empty(group), records, commands);
    let mut cases = vec![
        good("1,024 records", 0, &filled(Group::Boot, 1024, 256)),
        bad("1,025 records", &filled(Group::Boot, 1025, 256)),
    ];
    for group in Group::BOTH {
        let (at, over) = (filled(group, 256, 256), filled(group, 257, 257));
        cases.push(good("256 commands in a program", 0, &at));
        cases.push(bad("257 commands in a program", &over));
    }
    cases
}

/// No well-formed program is at the limit of bytes: those there have too many
/// commands.
fn most_bytes() -> Vec<Own> {
    let mut rng = Rng::new(2);
    let mut cases = Vec::new();
    for group in Group::BOTH {
        let longest = longest(&mut rng, empty(group));
        let mut more = longest.clone();
        more.records.push(Record::jump(limits::RECORDS + 1));
        cases.push(good("longest program, 46,635 bytes", 0, &longest));
        cases.push(bad("longest program and a jump", &more));
    }
    let mut filled = |bytes| of_bytes(&mut rng, empty(Group::Boot), bytes);
    let (old, over) = (filled(32_768), filled(32_769));
    cases.push(good("program of 32,768 or 32,769 bytes", 0, &old));
    cases.push(good("program of 32,768 or 32,769 bytes", 0, &over));
    let most = limits::PROGRAM_BYTES;
    cases.push(bad("program of 49,152 bytes", &filled(most)));
    cases.push(bad("program of 49,153 bytes", &filled(most + 1)));
    cases
}

/// Identifiers are not read as CBOR.
fn headers() -> Vec<Own> {
    let named = |group, identifiers: Vec<Vec<u8>>| Program {
        identifiers,
        ..with(group, vec![index()])
    };
    let mut cases = Vec::new();
    for group in Group::BOTH {
        let eight = (0..8).map(|k| vec![k]).collect();
        let mut add = |shows, program| cases.push(good(shows, 0, &program));
        add("program without records", empty(group));
        add("8 components in a program", named(group, eight));
        add(
            "identifier of 1 byte in a program",
            named(group, vec![vec![0xff]]),
        );
        add(
            "identifier of 32 bytes in a program",
            named(group, vec![vec![0; 32]]),
        );
    }
    cases
}

/// Targets up to the count, at jumps too, and every place.
fn records() -> Vec<Own> {
    let anywhere = |place| Record { place, ..index() };
    let all = [
        entry(model::URI, &[b'u'; 96]),
        entry(model::SOURCE, &[1]),
        entry(model::DIGEST, &pool::DIGEST),
        entry(model::SIZE, &[0xff; 4]),
    ]
    .concat();
    let rows = [
        (vec![failing(1)], 0),
        (vec![failing(UNCAUGHT), abort()], 1),
        (vec![failing(2), abort(), index()], 0),
        (vec![failing(2), abort(), Record::jump(4), abort()], 0),
        (vec![Record::jump(1)], 0),
        (vec![Record::jump(2), abort()], 0),
        (vec![set(&[]), set(&all), abort()], 33),
        (vec![anywhere(0), anywhere(0xffff), failing(UNCAUGHT)], 1),
    ];
    let mut cases = Vec::new();
    for group in Group::BOTH {
        for (records, end) in rows.clone() {
            cases.push(good("records of a program", end, &with(group, records)));
        }
    }
    cases
}
