//! Envelopes at the limits of size, count and depth, and just over them.

use super::scene::{
    accepted, check, image, manifest, matches, nil, passes, refused, sample, COMMON, SAMPLE_ENDS,
};
use super::Own;
use crate::gen::encode::{encode, pad};
use crate::gen::model::{self, Argument, Command, Manifest, Sequence};
use crate::gen::Case;
use crate::reading::{limits, Group};
use crate::subjects::subjects;
use crate::tally::Reached;

pub fn cases() -> Vec<Own> {
    [
        envelope_bytes(),
        components(),
        identifier_bytes(),
        identifier_parts(),
        depth(),
        sequence_commands(),
        timed(),
    ]
    .concat()
}

fn padded(bytes: usize) -> Manifest {
    let mut manifest = sample();
    pad(&mut manifest, bytes);
    manifest
}

fn envelope_bytes() -> Vec<Own> {
    let (at, over) = (
        padded(limits::ENVELOPE_BYTES),
        padded(limits::ENVELOPE_BYTES + 1),
    );
    [
        accepted("envelope of 4,096 bytes", &at, SAMPLE_ENDS),
        refused("envelope of 4,097 bytes", 64, encode(&over)),
    ]
    .concat()
}

/// Uses the last component.
fn with_components(count: u8) -> Manifest {
    let last = usize::from(count.saturating_sub(1));
    let common = vec![Command::index(last), Command::set(image()), matches()];
    let start = vec![Command::index(last), nil(model::RUN)];
    manifest(count, vec![(COMMON, common), (model::RUN_SECTION, start)])
}

fn components() -> Vec<Own> {
    [
        accepted("1 component", &with_components(1), [0, 2]),
        accepted("8 components", &with_components(8), [0, 2]),
        refused("9 components", 66, encode(&with_components(9))),
        refused("no component", 66, encode(&with_components(0))),
    ]
    .concat()
}

fn with_identifier(parts: &[usize]) -> Manifest {
    let mut manifest = sample();
    manifest.components[0] = parts.iter().map(|&bytes| vec![b'i'; bytes]).collect();
    manifest
}

/// The length counts the heads.
fn identifier_bytes() -> Vec<Own> {
    let (at, over) = ("identifier of 32 bytes", "identifier of 33 bytes");
    [
        accepted(at, &with_identifier(&[29]), SAMPLE_ENDS),
        accepted(at, &with_identifier(&[7, 7, 7, 6]), SAMPLE_ENDS),
        refused(over, 66, encode(&with_identifier(&[30]))),
        refused(over, 66, encode(&with_identifier(&[7, 7, 7, 7]))),
    ]
    .concat()
}

fn identifier_parts() -> Vec<Own> {
    [
        accepted("identifier of 1 part", &with_identifier(&[0]), SAMPLE_ENDS),
        accepted(
            "identifier of 4 parts",
            &with_identifier(&[0, 0, 1, 0]),
            SAMPLE_ENDS,
        ),
        refused(
            "identifier of 5 parts",
            66,
            encode(&with_identifier(&[0; 5])),
        ),
        refused("identifier of no part", 66, encode(&with_identifier(&[]))),
    ]
    .concat()
}

type Nest = fn(Sequence) -> Command;
const NESTS: [Nest; 2] = [Command::sequence, |inner| Command::try_each(vec![inner])];

/// A sequence that stands so deep, common or a section being 1.
fn deep(key: u32, depth: usize, inner: Sequence, nest: Nest) -> Manifest {
    let sequence = (1..depth).fold(inner, |inner, _| vec![nest(inner)]);
    manifest(1, vec![(key, sequence)])
}

fn depth() -> Vec<Own> {
    let mut cases = Vec::new();
    for nest in NESTS {
        for key in [COMMON, model::RUN_SECTION] {
            let at = deep(key, limits::DEPTH, vec![passes()], nest);
            let over = deep(key, limits::DEPTH + 1, vec![passes()], nest);
            cases.extend(accepted("depth 4", &at, [0, 0]));
            cases.extend(refused("depth 5", 73, encode(&over)));
        }
    }
    let empty = deep(
        COMMON,
        limits::DEPTH + 1,
        Sequence::new(),
        Command::sequence,
    );
    cases.extend(refused("depth 5", 73, encode(&empty)));
    cases.extend(refused("depth 5, an odd sequence", 66, encode(&odd())));
    cases
}

/// A sequence of one item at depth 5.
fn odd() -> Manifest {
    let odd = Command {
        code: model::RUN_SEQUENCE,
        argument: Argument::Raw(vec![0x42, 0x81, 0x03]),
    };
    deep(COMMON, limits::DEPTH, vec![odd], Command::sequence)
}

fn index_commands(count: usize) -> Sequence {
    vec![Command::index(0); count]
}

fn sequence_commands() -> Vec<Own> {
    let mut cases = Vec::new();
    for depth in [1, 2] {
        let at = deep(COMMON, depth, index_commands(64), Command::sequence);
        let over = deep(COMMON, depth, index_commands(65), Command::sequence);
        cases.extend(accepted("64 commands in a sequence", &at, [0, 0]));
        cases.extend(refused("65 commands in a sequence", 66, encode(&over)));
    }
    cases
}

/// The envelopes that are timed: 4,096 bytes of commands, 256 of them, and a
/// boot of 256.
fn timed() -> Vec<Own> {
    let rows = [
        "envelope of 4,096 bytes",
        "1 section: weight 256",
        "trace full of events",
    ];
    let mut cases = Vec::new();
    for (subject, shows) in subjects().into_iter().skip(1).zip(rows) {
        let by_envelope = Case::Run {
            envelope: subject.envelope.clone(),
            group: Group::Boot,
            world: subject.world.clone(),
        };
        let by_program = Case::RunProgram {
            program: subject.program,
            world: subject.world,
        };
        cases.push(Own::new(shows, Reached::Accepted, check(subject.envelope)));
        cases.push(Own::new(shows, Reached::End(2), by_envelope));
        cases.push(Own::new(shows, Reached::End(2), by_program));
    }
    cases
}
