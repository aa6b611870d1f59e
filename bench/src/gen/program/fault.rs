use super::record::{Program, Record, UNCAUGHT};
use super::written::{command, entry, fill, parameters, written};
use super::{model, Rng};
use crate::reading::Group;

type Change = fn(&mut Rng, &mut Program);

/// Each puts one fault somewhere.
const FAULTS: [Change; 14] = [
    bad_target,
    jump_target,
    target_of_directive,
    bad_component,
    jump_fields,
    wrong_group,
    nested_code,
    unlisted_code,
    bad_argument,
    bad_parameter,
    unordered_parameters,
    repeated_identifier,
    identifier_length,
    component_count,
];

/// A program with one fault.
pub fn spoiled(rng: &mut Rng) -> Program {
    let mut program = written(rng);
    if program.records.is_empty() {
        fill(rng, &mut program, 4);
    }
    rng.pick(&FAULTS)(rng, &mut program);
    program
}

fn any_record<'p>(rng: &mut Rng, program: &'p mut Program) -> (usize, &'p mut Record) {
    let at = rng.below(program.records.len());
    (at, &mut program.records[at])
}

fn wrong_target(rng: &mut Rng, number: usize, count: usize) -> u16 {
    let targets = [number, number.saturating_sub(1), 0, count + 1, 0xfffe];
    rng.pick(&targets) as u16
}

fn bad_target(rng: &mut Rng, program: &mut Program) {
    let count = program.records.len();
    let (number, record) = any_record(rng, program);
    record.code = model::IMAGE_MATCH as u8;
    record.argument.clear();
    record.target = wrong_target(rng, number, count);
}

fn jump_target(rng: &mut Rng, program: &mut Program) {
    let count = program.records.len();
    let (number, record) = any_record(rng, program);
    let uncaught = rng.percent(20);
    let target = if uncaught {
        UNCAUGHT
    } else {
        wrong_target(rng, number, count)
    };
    *record = Record::jump(target.into());
}

fn target_of_directive(rng: &mut Rng, program: &mut Program) {
    let count = program.records.len();
    let (_, record) = any_record(rng, program);
    record.code = rng.pick(&[12, 14, 22, 32]);
    record.argument.clear();
    record.target = count as u16;
}

fn bad_component(rng: &mut Rng, program: &mut Program) {
    let component = program.identifiers.len() as u8 + rng.pick(&[0, 0, 1, 200]);
    any_record(rng, program).1.component = component;
}

fn jump_fields(rng: &mut Rng, program: &mut Program) {
    let count = program.records.len();
    let (_, record) = any_record(rng, program);
    *record = Record::jump(count);
    match rng.below(3) {
        0 => record.component = 1,
        1 => record.place = 1,
        _ => record.argument.push(0),
    }
}

fn wrong_group(rng: &mut Rng, program: &mut Program) {
    let code = match program.group {
        Group::Install => model::RUN,
        Group::Boot => model::FETCH,
    };
    let (_, record) = any_record(rng, program);
    *record = command(rng, code as u8, 0, Vec::new());
}

fn nested_code(rng: &mut Rng, program: &mut Program) {
    let (_, record) = any_record(rng, program);
    let code = rng.pick(&[model::TRY_EACH, model::RUN_SEQUENCE]);
    *record = command(rng, code as u8, 0, Vec::new());
}

fn unlisted_code(rng: &mut Rng, program: &mut Program) {
    let (_, record) = any_record(rng, program);
    let code = rng.pick(&[0, 4, 13, 24, 33, 0xfd, 0xfe]);
    *record = command(rng, code, 0, Vec::new());
}

fn bad_argument(rng: &mut Rng, program: &mut Program) {
    let (_, record) = any_record(rng, program);
    let (code, length) = rng.pick(&[(1, 15), (1, 17), (2, 0), (3, 1), (12, 1), (14, 16), (22, 1)]);
    let argument = rng.bytes(length);
    *record = command(rng, code, 0, argument);
}

fn bad_parameter(rng: &mut Rng, program: &mut Program) {
    let components = program.identifiers.len() as u8;
    let argument = match rng.below(9) {
        0 => entry(model::URI, &[]),
        1 => entry(model::URI, &rng.bytes(97)),
        2 => entry(model::SOURCE, &[components]),
        3 => entry(model::SOURCE, &[0, 0]),
        4 => entry(model::DIGEST, &rng.bytes(31)),
        5 => entry(model::SIZE, &rng.bytes(3)),
        6 => entry(model::COERCE, &[1]),
        7 => vec![model::SIZE as u8],
        _ => vec![model::SIZE as u8, 4, 0, 0, 0],
    };
    let (_, record) = any_record(rng, program);
    *record = command(rng, model::SET_PARAMETERS as u8, 0, argument);
}

fn unordered_parameters(rng: &mut Rng, program: &mut Program) {
    let mut entries = parameters(rng, program.identifiers.len()).to_vec();
    let (one, other) = (rng.below(4), rng.below(4));
    entries[one] = entries[other].clone();
    let (_, record) = any_record(rng, program);
    let argument = entries.concat();
    *record = command(rng, model::OVERRIDE_PARAMETERS as u8, 0, argument);
}

fn repeated_identifier(rng: &mut Rng, program: &mut Program) {
    let again = program.identifiers[rng.below(program.identifiers.len())].clone();
    program.identifiers.push(again);
}

fn identifier_length(rng: &mut Rng, program: &mut Program) {
    let length = rng.pick(&[0, 33, 255]);
    let at = rng.below(program.identifiers.len());
    program.identifiers[at] = rng.bytes(length);
}

fn component_count(rng: &mut Rng, program: &mut Program) {
    let count = rng.pick(&[0, 9, 9]);
    program.identifiers.truncate(count);
    while program.identifiers.len() < count {
        program.identifiers.push(rng.bytes(6));
    }
}
