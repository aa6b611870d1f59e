//! Envelopes whose commands weigh 256 together, and ones that weigh more: a
//! command of common weighs as many as there are sections, at least 1.

use super::scene::{accepted, check, manifest, nil, passes, ran, refused, setting, COMMON};
use super::Own;
use crate::gen::encode::{encode, encode_with, heads, Quirk};
use crate::gen::model::{self, Command, Manifest, Sequence};
use crate::reading::{limits, Group};
use crate::tally::Reached;

/// The sections that a manifest has, and what its common and its last section
/// hold to weigh 256.
struct Row {
    at: &'static str,
    past: &'static str,
    keys: &'static [u32],
    commands: &'static [(usize, usize)],
}

const ROWS: [Row; 4] = [
    Row {
        at: "no section: weight 256",
        past: "no section: past 256",
        keys: &[],
        commands: &[(256, 0)],
    },
    Row {
        at: "1 section: weight 256",
        past: "1 section: past 256",
        keys: &[12],
        commands: &[(256, 0), (64, 192), (1, 255), (0, 256)],
    },
    Row {
        at: "2 sections: weight 256",
        past: "2 sections: past 256",
        keys: &[9, 10],
        commands: &[(128, 0), (64, 128), (1, 254)],
    },
    Row {
        at: "5 sections: weight 256",
        past: "5 sections: past 256",
        keys: &[8, 9, 10, 11, 12],
        commands: &[(51, 1), (50, 6), (1, 251)],
    },
];

pub fn cases() -> Vec<Own> {
    let rows = ROWS.iter().flat_map(of_row);
    let rows: Vec<Own> = rows.collect();
    [rows, full_trace(), last_command(), later_fault()].concat()
}

fn flat(commands: usize) -> Sequence {
    vec![Command::index(0); commands]
}

/// So many commands, 15 and 30 among them.
fn nested(commands: usize) -> Sequence {
    let mut sequence = Sequence::new();
    let mut left = commands;
    while left > 0 {
        let inner = flat((left - 1).min(63));
        left -= 1 + inner.len();
        sequence.push(match sequence.len() % 2 {
            0 => Command::sequence(inner),
            _ => Command::try_each(vec![inner]),
        });
    }
    sequence
}

/// So many commands, nested where one sequence cannot hold them.
fn filler(commands: usize) -> Sequence {
    if commands > 64 {
        nested(commands)
    } else {
        flat(commands)
    }
}

/// With what common and the last section hold; sections before it are empty.
fn with(keys: &[u32], common: Sequence, last: Sequence) -> Manifest {
    let mut sections = vec![(COMMON, common)];
    sections.extend(keys.iter().map(|&key| (key, Sequence::new())));
    let mut manifest = manifest(1, sections);
    if let Some((_, sequence)) = manifest.sections.last_mut() {
        *sequence = last;
    }
    manifest
}

fn of_row(row: &Row) -> Vec<Own> {
    let mut cases = Vec::new();
    for &(common, last) in row.commands {
        let good = with(row.keys, filler(common), filler(last));
        let other = with(row.keys, nested(common), nested(last));
        cases.extend(accepted(row.at, &good, [0, 0]));
        cases.push(Own::new(row.at, Reached::Accepted, check(encode(&other))));
        if !row.keys.is_empty() {
            let over = with(row.keys, filler(common), with_one_more(last));
            cases.extend(refused(row.past, 74, encode(&over)));
        }
    }
    let most = row.commands[0].0;
    for common in [with_one_more(most), with_one_more_inside(most)] {
        let over = with(row.keys, common, Sequence::new());
        cases.extend(refused(row.past, 74, encode(&over)));
    }
    cases
}

/// The last command is one too many; the others are flat where there is room.
fn with_one_more(commands: usize) -> Sequence {
    let mut sequence = if commands < 64 {
        flat(commands)
    } else {
        nested(commands)
    };
    sequence.push(passes());
    sequence
}

/// The last command, which is one too many, stands alone in a nested sequence.
fn with_one_more_inside(commands: usize) -> Sequence {
    let mut sequence = nested(commands - 1);
    sequence.push(Command::sequence(vec![passes()]));
    sequence
}

/// 64 commands of common twice and 64 of each section.
fn full_trace() -> Vec<Own> {
    let keys = [COMMON, 8, 9].map(|key| (key, flat(64)));
    let manifest = manifest(1, keys.to_vec());
    let setting = setting(&manifest, Group::Install);
    ran(
        "trace full of events",
        &encode(&manifest),
        Group::Install,
        &setting,
        Reached::End(0),
    )
}

/// On the code that goes past 256 the lowest number counts, before its argument.
fn last_command() -> Vec<Own> {
    let shows = "past 256, the last wrong";
    let mut cases = Vec::new();
    for (code, number) in [(13, 69), (model::FETCH, 71), (model::VENDOR, 74)] {
        let last = || vec![nil(code)];
        let common = [flat(51), last()].concat();
        for manifest in [
            with(&[12], filler(256), last()),
            with(&[8, 9, 10, 11, 12], common, flat(1)),
        ] {
            let case = check(encode(&manifest));
            cases.push(Own::new(shows, Reached::Refused(number), case));
        }
    }
    for (byte, number) in [(0x1c, 65), (0x60, 66)] {
        let manifest = with(&[12], filler(256), vec![nil(model::VENDOR)]);
        // Behind it the encoder writes three heads: of the argument, the
        // section and the manifest.
        let code = heads(&manifest) - 4;
        let case = check(encode_with(&manifest, code, Quirk::Byte(byte)));
        cases.push(Own::new(shows, Reached::Refused(number), case));
    }
    cases
}

/// The weight is that of the sections that the map's head promises, whatever
/// follows.
fn later_fault() -> Vec<Own> {
    let shows = "weight by the map's head";
    let with_common = |commands, keys: &[u32]| encode(&with(keys, flat(commands), Sequence::new()));
    let rows = [
        (52, &[8, 8, 9, 10, 11][..], 74),
        (51, &[8, 8, 9, 10, 11], 66),
        (52, &[13, 8, 9, 10, 11], 74),
        (64, &[12, 11, 10, 9], 66),
    ];
    let mut cases = Vec::new();
    for (commands, keys, number) in rows {
        cases.extend(refused(shows, number, with_common(commands, keys)));
    }
    let good = with(&[8, 9, 10, 11], flat(limits::COMMANDS / 4), Sequence::new());
    cases.extend(accepted(shows, &good, [0, 0]));
    cases
}
