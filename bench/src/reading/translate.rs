use super::check::check;
use super::command::{Alternatives, Argument, Command, Sequence};
use super::components::Components;
use super::parameters::{self, Parameters};
use super::program::{COMPONENT, JUMP, MARK, START, UNCAUGHT};
use super::refusal::{Fault, Refusal};
use super::Group;

/// Where the count of command records stands.
const COUNT: std::ops::Range<usize> = 9..11;

/// Translates an envelope for a group into a program of at most `room` bytes.
pub fn translate(envelope: &[u8], group: Group, room: usize) -> Result<Vec<u8>, Refusal> {
    let manifest = check(envelope)?;
    let mut writer = Writer::default();
    writer.start(group, manifest.number, &manifest.components);
    for sequence in manifest.sequences(group) {
        writer.sequence(sequence, 0, Catch::NOWHERE);
    }
    let program = writer.finish();
    Fault::RoomTooShort.unless(program.len() <= room, 0)?;
    Ok(program)
}

/// The records where a condition that fails in a sequence goes on.
#[derive(Clone, Copy)]
struct Catch {
    plain: u16,
    coerced: u16,
}

impl Catch {
    const NOWHERE: Catch = Catch::at(UNCAUGHT);

    const fn at(target: u16) -> Self {
        Catch {
            plain: target,
            coerced: target,
        }
    }
}

#[derive(Default)]
struct Writer {
    program: Vec<u8>,
    records: u16,
}

impl Writer {
    fn start(&mut self, group: Group, number: u32, components: &Components) {
        let group = match group {
            Group::Install => 0,
            Group::Boot => 1,
        };
        self.put(&MARK);
        self.put(&[START, group]);
        self.put(&number.to_be_bytes());
        self.put(&[components.count() as u8, 0, 0]);
        for identifier in components.identifiers() {
            self.put(&MARK);
            self.put(&[COMPONENT, identifier.len() as u8]);
            self.put(identifier);
        }
    }

    fn finish(mut self) -> Vec<u8> {
        self.program[COUNT].copy_from_slice(&self.records.to_be_bytes());
        self.program
    }

    fn sequence(&mut self, sequence: Sequence, mut index: usize, catch: Catch) {
        let mut coerce = false;
        for command in sequence {
            match &command.argument {
                Argument::Index(new) => index = *new,
                Argument::Parameters(new) => coerce = new.coerce.unwrap_or(coerce),
                _ => {}
            }
            let target = if coerce { catch.coerced } else { catch.plain };
            self.command(command, index, target);
        }
    }

    fn command(&mut self, command: Command, index: usize, target: u16) {
        match command.argument {
            Argument::Sequence(inner) => {
                let catch = Catch {
                    plain: target,
                    coerced: self.records + records_of(inner.clone()),
                };
                self.sequence(inner, index, catch);
            }
            Argument::Alternatives(alternatives) => self.try_each(alternatives, index, target),
            argument => {
                let condition = command.code.is_condition();
                let target = if condition { target } else { UNCAUGHT };
                let argument = argument_bytes(&argument);
                self.record(command.code as u8, index, command.place, target, &argument);
            }
        }
    }

    fn try_each(&mut self, mut alternatives: Alternatives, index: usize, target: u16) {
        let end = self.records + records_of_each(alternatives.clone());
        while let Some(alternative) = alternatives.next() {
            if alternatives.is_empty() {
                self.sequence(alternative, index, Catch::at(target));
            } else {
                let next = self.records + records_of(alternative.clone()) + 1;
                self.sequence(alternative, index, Catch::at(next));
                self.record(JUMP, 0, 0, end, &[]);
            }
        }
    }

    fn record(&mut self, code: u8, component: usize, place: usize, target: u16, argument: &[u8]) {
        self.put(&MARK);
        self.put(&[code, component as u8]);
        self.put(&(place as u16).to_be_bytes());
        self.put(&target.to_be_bytes());
        self.put(&(argument.len() as u16).to_be_bytes());
        self.put(argument);
        self.records += 1;
    }

    fn put(&mut self, bytes: &[u8]) {
        self.program.extend_from_slice(bytes);
    }
}

fn records_of(sequence: Sequence) -> u16 {
    let records = sequence.map(|command| match command.argument {
        Argument::Sequence(inner) => records_of(inner),
        Argument::Alternatives(alternatives) => records_of_each(alternatives),
        _ => 1,
    });
    records.sum()
}

/// The records of a try each, with a jump between two alternatives.
fn records_of_each(alternatives: Alternatives) -> u16 {
    let records = alternatives.map(|alternative| records_of(alternative) + 1);
    records.sum::<u16>() - 1
}

fn argument_bytes(argument: &Argument) -> Vec<u8> {
    match argument {
        Argument::Identity(identity) => identity.to_vec(),
        Argument::Parameters(new) => parameter_bytes(&new.parameters),
        _ => Vec::new(),
    }
}

fn parameter_bytes(parameters: &Parameters) -> Vec<u8> {
    let mut bytes = Vec::new();
    let mut entry = |key: u32, value: &[u8]| {
        bytes.extend_from_slice(&[key as u8, value.len() as u8]);
        bytes.extend_from_slice(value);
    };
    if let Some(uri) = parameters.uri {
        entry(parameters::URI, uri);
    }
    if let Some(source) = parameters.source {
        entry(parameters::SOURCE, &[source as u8]);
    }
    if let Some(digest) = parameters.digest {
        entry(parameters::DIGEST, digest);
    }
    if let Some(size) = parameters.size {
        entry(parameters::SIZE, &size.to_be_bytes());
    }
    bytes
}
