//! A small manifest with one head changed.

use super::scene::{check, manifest, matches, nil, COMMON};
use super::Own;
use crate::gen::encode::{encode_with, heads, Quirk};
use crate::gen::model::{self, Command, Manifest, Parameter};
use crate::tally::Reached;

/// First bytes of heads that are not CBOR here: reserved, negative, of
/// indefinite length, tags, other simple values, floats, break.
const FOREIGN: [u8; 20] = [
    0x1c, 0x1f, 0x20, 0x37, 0x38, 0x3f, 0x5f, 0x7f, 0x9f, 0xbf, 0xc0, 0xd8, 0xe0, 0xf3, 0xf7, 0xf8,
    0xf9, 0xfa, 0xfb, 0xff,
];
/// Counted as the encoder writes them.
const VERSION_HEAD: usize = 6;
const NUMBER_HEAD: usize = 8;

pub fn cases() -> Vec<Own> {
    [longer(), foreign(), wide_number(), changed()].concat()
}

/// Most kinds of item, in few bytes.
fn small() -> Manifest {
    let parameters = vec![
        Parameter::coerce(true),
        Parameter::uri(vec![b'u']),
        Parameter::source(0),
        Parameter::size(100),
    ];
    let nested = Command::sequence(vec![matches()]);
    let run = vec![
        Command::index(0),
        Command::try_each(vec![vec![nested]]),
        nil(model::RUN),
    ];
    let common = vec![Command::set(parameters)];
    manifest(1, vec![(COMMON, common), (model::RUN_SECTION, run)])
}

fn with(head: usize, quirk: Quirk) -> Vec<u8> {
    encode_with(&small(), head, quirk)
}

/// No head may be longer than it has to be.
fn longer() -> Vec<Own> {
    let long = |head| {
        let case = check(with(head, Quirk::Width(1)));
        Own::new("head not shortest", Reached::Refused(65), case)
    };
    (0..heads(&small())).map(long).collect()
}

fn foreign() -> Vec<Own> {
    let mut cases = Vec::new();
    for byte in FOREIGN {
        for head in [VERSION_HEAD, NUMBER_HEAD] {
            let case = check(with(head, Quirk::Byte(byte)));
            cases.push(Own::new("not CBOR", Reached::Refused(65), case));
        }
    }
    cases
}

fn wide_number() -> Vec<Own> {
    let case = check(with(NUMBER_HEAD, Quirk::Width(8)));
    vec![Own::new("number of 8 bytes", Reached::Refused(65), case)]
}

/// Every head with a number next to its own, and of every other major type.
fn changed() -> Vec<Own> {
    let offsets = [-2, -1, 1, 2].map(Quirk::Offset).into_iter();
    let quirks: Vec<Quirk> = offsets.chain((0..8).map(Quirk::Major)).collect();
    let mut cases = Vec::new();
    for head in 0..heads(&small()) {
        for &quirk in &quirks {
            cases.push(Own {
                shows: "another head",
                wanted: None,
                case: check(with(head, quirk)),
            });
        }
    }
    cases
}
