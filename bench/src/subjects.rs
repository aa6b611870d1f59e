//! Envelopes whose check and boot are measured. A boot of each runs through,
//! ends with a start and leaves the slots as they were.

use crate::gen::encode::{encode, encode_identifier, pad};
use crate::gen::model::{self, Command, Manifest, Parameter, Sequence};
use crate::gen::{Slot, World};
use crate::hex;
use crate::reading::{limits, translate, Device, Group};

/// The envelope of the bench sheet.
pub const E: &str = "a201f603584da40101020103583ca2024c818245466c6173684300340104582a8213a2\
    0b582000112233445566778899aabbccddeeff0123456789abcdeffedcba98765432100c1987d00c47860c0003\
    f617f6";
const VENDOR: [u8; 16] = [0x11; 16];
const CLASS: [u8; 16] = [0x22; 16];
const OTHER: [u8; 16] = [0x33; 16];
const DIGEST: [u8; 32] = [
    0x00, 0x11, 0x22, 0x33, 0x44, 0x55, 0x66, 0x77, 0x88, 0x99, 0xaa, 0xbb, 0xcc, 0xdd, 0xee, 0xff,
    0x01, 0x23, 0x45, 0x67, 0x89, 0xab, 0xcd, 0xef, 0xfe, 0xdc, 0xba, 0x98, 0x76, 0x54, 0x32, 0x10,
];
const SIZE: u32 = 34_768;
const NUMBER: u32 = 1;

pub struct Subject {
    pub name: &'static str,
    pub envelope: Vec<u8>,
    pub program: Vec<u8>,
    pub world: World,
}

pub fn subjects() -> Vec<Subject> {
    let bench_sheet = hex::decode(E).expect("hex");
    vec![
        subject("E, 83 bytes", bench_sheet),
        subject("4,096 bytes", encode(&full())),
        subject("256 commands, nested", encode(&nested())),
        subject("256 commands, flat", encode(&flat())),
    ]
}

/// Prints a table with a row for each subject; a cell is given by the numbers
/// of its row and its column.
pub fn print_table(subjects: &[Subject], columns: &[&str], cell: impl Fn(usize, usize) -> String) {
    println!("| envelope | {} |", columns.join(" | "));
    println!("|---|{}", "---:|".repeat(columns.len()));
    for (row, subject) in subjects.iter().enumerate() {
        let cells: Vec<String> = (0..columns.len()).map(|column| cell(row, column)).collect();
        println!("| {} | {} |", subject.name, cells.join(" | "));
    }
}

fn subject(name: &'static str, envelope: Vec<u8>) -> Subject {
    let program = translate(&envelope, Group::Boot, usize::MAX).expect("accepted");
    Subject {
        name,
        envelope,
        program,
        world: world(),
    }
}

/// Both components hold the wanted image.
fn world() -> World {
    World {
        verdict: true,
        device: Device {
            vendor: VENDOR,
            class: CLASS,
            number: NUMBER,
            event_open: false,
        },
        slots: components().iter().flat_map(slot).collect(),
        answers: Vec::new(),
        trace: vec![0; limits::TRACE_BYTES],
    }
}

fn components() -> Vec<model::Identifier> {
    let first = vec![b"Flash".to_vec(), vec![0x00, 0x34, 0x01]];
    let second = vec![b"RAM".to_vec(), vec![0x00, 0x04, 0x00]];
    vec![first, second]
}

fn slot(identifier: &model::Identifier) -> Vec<u8> {
    let slot = Slot {
        capacity: 0x10_0000,
        size: SIZE,
        digest: DIGEST,
        ..Slot::holding(&encode_identifier(identifier))
    };
    slot.encode()
}

fn manifest(common: Sequence, sections: Vec<(u32, Sequence)>) -> Manifest {
    Manifest {
        authentication: None,
        version: 1,
        number: NUMBER,
        components: components(),
        common: Some(common),
        sections,
    }
}

fn image_parameters() -> Vec<Parameter> {
    vec![
        Parameter::source(1),
        Parameter::digest(DIGEST),
        Parameter::size(SIZE),
    ]
}

fn vendor(identity: [u8; 16]) -> Command {
    Command::identity(model::VENDOR, identity)
}

fn class(identity: [u8; 16]) -> Command {
    Command::identity(model::CLASS, identity)
}

fn image_match() -> Command {
    Command::nil(model::IMAGE_MATCH)
}

fn copy() -> Command {
    Command::nil(model::COPY)
}

fn start() -> Sequence {
    vec![Command::nil(model::RUN)]
}

/// Long parameters, filled up to the byte limit.
fn full() -> Manifest {
    let mut parameters = image_parameters();
    parameters.insert(0, Parameter::uri(vec![b'u'; limits::URI_BYTES]));
    let mut common = Sequence::new();
    for _ in 0..26 {
        common.push(Command::override_with(parameters.clone()));
        common.push(image_match());
    }
    let mut manifest = manifest(common, vec![(model::RUN_SECTION, start())]);
    pad(&mut manifest, limits::ENVELOPE_BYTES);
    manifest
}

/// Twelve commands to depth 4, of which each is done: the first alternative
/// fails at its end, after a sequence that succeeds by its coerce.
fn block() -> Command {
    let choice = Command::try_each(vec![vec![class(OTHER)], vec![class(CLASS)]]);
    let coerced = vec![
        Command::override_with(vec![Parameter::coerce(true)]),
        image_match(),
        choice,
        vendor(OTHER),
    ];
    let failing = vec![
        Command::index(1),
        Command::index(0),
        Command::sequence(coerced),
        class(OTHER),
    ];
    Command::try_each(vec![failing, vec![image_match()]])
}

/// One section, so that common runs once and 256 commands stand in the envelope.
fn nested() -> Manifest {
    let common = vec![Command::set(image_parameters()), image_match()];
    let mut run = vec![block(); 21];
    run.push(image_match());
    run.extend(start());
    manifest(common, vec![(model::RUN_SECTION, run)])
}

/// Three sections, so that common runs three times: 212 commands in the
/// envelope, 256 in a boot.
fn flat() -> Manifest {
    let mut common = vec![Command::set(image_parameters())];
    let step = [
        Command::index(0),
        vendor(VENDOR),
        image_match(),
        Command::override_with(vec![Parameter::size(SIZE)]),
    ];
    common.extend(step.iter().cycle().take(21).cloned());
    let validate = step.iter().cycle().take(64).cloned().collect();
    let load = vec![copy(); 64];
    let mut run = vec![image_match(); 61];
    run.extend(start());
    let sections = vec![
        (model::VALIDATE_SECTION, validate),
        (model::LOAD_SECTION, load),
        (model::RUN_SECTION, run),
    ];
    manifest(common, sections)
}

#[cfg(test)]
mod tests {
    use super::*;
    use crate::answer::{Jobs, Lent};
    use crate::jobs::Reading;

    #[test]
    fn boots_run_through_and_leave_the_slots() {
        for subject in subjects() {
            let world = &subject.world;
            let (mut one, mut other) = (Lent::from(world), Lent::from(world));
            let answer = Reading.run(&subject.envelope, Group::Boot, world, &mut one);
            assert_eq!((answer.refusal, answer.end), (0, 2), "{}", subject.name);
            assert_eq!(one.slots, world.slots, "{}", subject.name);
            let again = Reading.run_program(&subject.program, world, &mut other);
            assert_eq!(answer, again, "{}", subject.name);
        }
    }

    #[test]
    fn subjects_are_at_the_limits() {
        assert_eq!(encode(&full()).len(), limits::ENVELOPE_BYTES);
        assert_eq!(nested().weight(), limits::COMMANDS);
        assert_eq!(flat().weight(), limits::COMMANDS);
    }

    #[test]
    fn boots_have_these_events() {
        let events = |subject: &Subject| {
            let mut lent = Lent::from(&subject.world);
            let answer = Reading.run(&subject.envelope, Group::Boot, &subject.world, &mut lent);
            answer.events
        };
        let counts: Vec<usize> = subjects().iter().map(events).collect();
        assert_eq!(counts, [4, 53, 193, 256]);
    }
}
