use super::record::{Program, Record, UNCAUGHT};
use super::{model, pool, Rng};
use crate::reading::Group;

/// A program without records.
pub fn empty(rng: &mut Rng) -> Program {
    let count = if rng.percent(80) {
        rng.within(1..=3)
    } else {
        rng.within(4..=8)
    };
    let identifier = |k: usize| {
        let length = if rng.percent(10) { 31 } else { rng.below(8) };
        let mut identifier = vec![k as u8];
        identifier.extend(rng.bytes(length));
        identifier
    };
    let identifiers = (0..count).map(identifier).collect();
    Program {
        group: rng.pick(&Group::BOTH),
        number: pool::number(rng),
        identifiers,
        records: Vec::new(),
    }
}

/// A well-formed program that need not come from an envelope.
pub fn written(rng: &mut Rng) -> Program {
    let mut program = empty(rng);
    let count = rng.pick(&[0, 1, 4, 10, 20, 40]);
    fill(rng, &mut program, count);
    program
}

pub fn fill(rng: &mut Rng, program: &mut Program, count: usize) {
    if rng.percent(70) && count > program.identifiers.len() {
        for component in 0..program.identifiers.len() {
            let argument = first_parameters(rng, program.identifiers.len());
            let code = model::OVERRIDE_PARAMETERS as u8;
            let record = command(rng, code, component, argument);
            program.records.push(record);
        }
    }
    while program.records.len() < count {
        let record = if rng.percent(12) {
            Record::jump(forward(rng, program.records.len(), count))
        } else {
            any_command(rng, program, count)
        };
        program.records.push(record);
    }
}

/// A target after the record, most often near it.
pub fn forward(rng: &mut Rng, number: usize, count: usize) -> usize {
    let furthest = if rng.percent(85) {
        (number + 5).min(count)
    } else {
        count
    };
    rng.within(number + 1..=furthest)
}

pub fn command(rng: &mut Rng, code: u8, component: usize, argument: Vec<u8>) -> Record {
    let place = match rng.below(20) {
        0 => rng.pick(&[0, 1, 0xfffe, 0xffff]),
        1 => rng.draw() as u16,
        _ => rng.below(4096) as u16,
    };
    Record {
        code,
        component: component as u8,
        place,
        target: UNCAUGHT,
        argument,
    }
}

fn any_command(rng: &mut Rng, program: &Program, count: usize) -> Record {
    let components = program.identifiers.len();
    let only = match program.group {
        Group::Install => model::FETCH,
        Group::Boot => model::RUN,
    };
    let code = match rng.below(100) {
        0..=8 => model::VENDOR,
        9..=15 => model::CLASS,
        16..=31 => model::IMAGE_MATCH,
        32..=41 => model::SET_COMPONENT_INDEX,
        42 => model::ABORT,
        43..=50 => model::SET_PARAMETERS,
        51..=60 => model::OVERRIDE_PARAMETERS,
        61..=74 => model::COPY,
        75..=84 => model::SWAP,
        _ if program.group == Group::Boot && rng.percent(80) => model::IMAGE_MATCH,
        _ => only,
    };
    let component = rng.below(components);
    let argument = argument(rng, code, components);
    let mut record = command(rng, code as u8, component, argument);
    if code <= model::IMAGE_MATCH && rng.percent(70) {
        record.target = forward(rng, program.records.len(), count) as u16;
    }
    record
}

fn argument(rng: &mut Rng, code: u32, components: usize) -> Vec<u8> {
    match code {
        model::VENDOR => pool::identity(rng, pool::VENDOR, 20).to_vec(),
        model::CLASS => pool::identity(rng, pool::CLASS, 20).to_vec(),
        model::SET_PARAMETERS | model::OVERRIDE_PARAMETERS => some_parameters(rng, components),
        _ => Vec::new(),
    }
}

fn some_parameters(rng: &mut Rng, components: usize) -> Vec<u8> {
    let all = parameters(rng, components);
    let some = all.into_iter().filter(|_| rng.percent(45));
    some.collect::<Vec<_>>().concat()
}

fn first_parameters(rng: &mut Rng, components: usize) -> Vec<u8> {
    parameters(rng, components)[..3].concat()
}

pub fn parameters(rng: &mut Rng, components: usize) -> [Vec<u8>; 4] {
    let source = rng.below(components) as u8;
    [
        entry(model::URI, &pool::uri(rng)),
        entry(model::SOURCE, &[source]),
        entry(model::DIGEST, &pool::digest(rng)),
        entry(model::SIZE, &pool::size(rng).to_be_bytes()),
    ]
}

pub fn entry(key: u32, value: &[u8]) -> Vec<u8> {
    let mut entry = vec![key as u8, value.len() as u8];
    entry.extend(value);
    entry
}
