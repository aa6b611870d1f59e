use super::command::Argument;
use super::components::Components;
use super::machine::Header;
use super::parameters::{self, Assignment, Parameters};
use super::table::{self, Code, Shape};
use super::{limits, Group, Span};

pub const MARK: [u8; 2] = [0x53, 0x50];
pub const START: u8 = 0xfe;
pub const COMPONENT: u8 = 0xfd;
pub const JUMP: u8 = 0xff;
pub const UNCAUGHT: u16 = 0xffff;

/// A well-formed program.
pub struct Program<'a> {
    pub header: Header<'a>,
    count: usize,
    records: &'a [u8],
}

impl<'a> Program<'a> {
    /// The program in `bytes`, or nothing where it is not well formed.
    pub fn read(bytes: &'a [u8]) -> Option<Self> {
        if bytes.len() > limits::PROGRAM_BYTES {
            return None;
        }
        let mut rest = bytes;
        let start: [u8; 11] = take(&mut rest)?;
        let [m, n, START, group, a, b, c, d, components, high, low] = start else {
            return None;
        };
        let group = match group {
            0 => Group::Install,
            1 => Group::Boot,
            _ => return None,
        };
        let components = identifiers(bytes, &mut rest, usize::from(components))?;
        let program = Program {
            header: Header {
                group,
                number: u32::from_be_bytes([a, b, c, d]),
                components,
            },
            count: usize::from(u16::from_be_bytes([high, low])),
            records: rest,
        };
        ([m, n] == MARK && program.records_well_formed()).then_some(program)
    }

    pub fn records(&self) -> Records<'a> {
        Records { rest: self.records }
    }

    fn records_well_formed(&self) -> bool {
        let mut records = self.records();
        let mut commands = 0;
        for number in 0..self.count {
            let Some(record) = records.next() else {
                return false;
            };
            if !self.well_formed(number, &record) {
                return false;
            }
            commands += usize::from(record.code != JUMP);
        }
        let ended = records.rest.is_empty();
        ended && self.count <= limits::RECORDS && commands <= limits::COMMANDS
    }

    fn well_formed(&self, number: usize, record: &Record) -> bool {
        let target = usize::from(record.target);
        let forward = number < target && target <= self.count;
        let uncaught = record.target == UNCAUGHT;
        if record.code == JUMP {
            return forward
                && record.component == 0
                && record.place == 0
                && record.argument.is_empty();
        }
        let Some((code, shape)) = record.command() else {
            return false;
        };
        let allowed = match code {
            Code::Fetch => self.header.group == Group::Install,
            Code::Run => self.header.group == Group::Boot,
            _ => true,
        };
        let components = self.header.components.count();
        allowed
            && record.component < components
            && (uncaught || code.is_condition() && forward)
            && argument_well_formed(shape, record.argument, components)
    }
}

/// Whether the bytes are a well-formed program.
pub fn test_program(bytes: &[u8]) -> bool {
    Program::read(bytes).is_some()
}

fn identifiers<'a>(program: &'a [u8], rest: &mut &'a [u8], count: usize) -> Option<Components<'a>> {
    if !(1..=limits::COMPONENTS).contains(&count) {
        return None;
    }
    let mut components = Components::new(program);
    for _ in 0..count {
        let [m, n, kind, length] = take(rest)?;
        let from = program.len() - rest.len();
        let identifier = rest.split_off(..usize::from(length))?;
        let to = from + identifier.len();
        let sound = [m, n] == MARK
            && kind == COMPONENT
            && (1..=limits::IDENTIFIER_BYTES).contains(&identifier.len());
        let span = Span { from, to };
        if !sound || components.contains(span) {
            return None;
        }
        components.push(span);
    }
    Some(components)
}

/// One command record.
pub struct Record<'a> {
    pub code: u8,
    pub component: usize,
    pub place: usize,
    pub target: u16,
    argument: &'a [u8],
}

impl<'a> Record<'a> {
    fn read(rest: &mut &'a [u8]) -> Option<Self> {
        let head: [u8; 10] = take(rest)?;
        let [m, n, code, component, p, q, t, u, high, low] = head;
        let length = usize::from(u16::from_be_bytes([high, low]));
        let argument = rest.split_off(..length)?;
        ([m, n] == MARK).then_some(Record {
            code,
            component: usize::from(component),
            place: usize::from(u16::from_be_bytes([p, q])),
            target: u16::from_be_bytes([t, u]),
            argument,
        })
    }

    /// The command of a record that is no jump; 15 and 30 have no record.
    pub fn command(&self) -> Option<(Code, Shape)> {
        let entry = table::lookup(self.code.into())?;
        let nested = matches!(entry.argument, Shape::Sequence | Shape::Alternatives);
        (!nested).then_some((entry.code, entry.argument))
    }

    pub fn argument(&self, shape: Shape) -> Argument<'a> {
        match shape {
            Shape::Identity => Argument::Identity(self.argument),
            Shape::Parameters => Argument::Parameters(assignment(self.argument)),
            _ => Argument::None,
        }
    }
}

/// The command records in turn.
pub struct Records<'a> {
    rest: &'a [u8],
}

impl<'a> Iterator for Records<'a> {
    type Item = Record<'a>;

    fn next(&mut self) -> Option<Record<'a>> {
        Record::read(&mut self.rest)
    }
}

/// The keys and values of a parameter argument in turn.
struct Entries<'a> {
    rest: &'a [u8],
}

impl<'a> Iterator for Entries<'a> {
    type Item = (u32, &'a [u8]);

    fn next(&mut self) -> Option<(u32, &'a [u8])> {
        let [key, length] = take(&mut self.rest)?;
        let value = self.rest.split_off(..usize::from(length))?;
        Some((u32::from(key), value))
    }
}

fn argument_well_formed(shape: Shape, argument: &[u8], components: usize) -> bool {
    match shape {
        Shape::Identity => argument.len() == 16,
        Shape::Parameters => parameters_well_formed(argument, components),
        _ => argument.is_empty(),
    }
}

fn parameters_well_formed(argument: &[u8], components: usize) -> bool {
    let mut last = None;
    let mut read = 0;
    for (key, value) in (Entries { rest: argument }) {
        if last >= Some(key) || !value_well_formed(key, value, components) {
            return false;
        }
        last = Some(key);
        read += 2 + value.len();
    }
    read == argument.len()
}

fn value_well_formed(key: u32, value: &[u8], components: usize) -> bool {
    match key {
        parameters::URI => (1..=limits::URI_BYTES).contains(&value.len()),
        parameters::SOURCE => matches!(value, &[source] if usize::from(source) < components),
        parameters::DIGEST => value.len() == 32,
        parameters::SIZE => value.len() == 4,
        _ => false,
    }
}

fn assignment(argument: &[u8]) -> Assignment<'_> {
    let mut parameters = Parameters::default();
    for (key, value) in (Entries { rest: argument }) {
        match key {
            parameters::URI => parameters.uri = Some(value),
            parameters::SOURCE => parameters.source = value.first().map(|&s| usize::from(s)),
            parameters::DIGEST => parameters.digest = Some(value),
            _ => parameters.size = value.first_chunk().map(|&size| u32::from_be_bytes(size)),
        }
    }
    Assignment {
        coerce: None,
        parameters,
    }
}

fn take<const N: usize>(rest: &mut &[u8]) -> Option<[u8; N]> {
    let (taken, left) = rest.split_first_chunk()?;
    *rest = left;
    Some(*taken)
}
