//! One fault in an envelope, for each refusal of check.

use super::scene::{check, manifest, nil, passes, refused, sample, COMMON, SECTIONS};
use super::Own;
use crate::gen::encode::encode;
use crate::gen::model::{
    Argument, Command, Manifest, Parameter, Sequence, Value, COPY, FETCH, RUN, SWAP,
};
use crate::gen::pool;
use crate::hex;
use crate::subjects::E;
use crate::tally::Reached;

pub fn cases() -> Vec<Own> {
    [
        cut_short(),
        versions(),
        section_keys(),
        repeated_identifiers(),
        unlisted_codes(),
        misplaced_codes(),
        unlisted_parameters(),
        parameter_order(),
        indexes(),
        left_over(),
    ]
    .concat()
}

/// Every start of E.
fn cut_short() -> Vec<Own> {
    let envelope = hex::decode(E).expect("hex");
    let cut = |length| {
        let case = check(envelope[..length].to_vec());
        Own::new("E cut short", Reached::Refused(65), case)
    };
    (0..envelope.len()).map(cut).collect()
}

fn versions() -> Vec<Own> {
    let with = |version| {
        encode(&Manifest {
            version,
            ..sample()
        })
    };
    let versions = [0, 2, 24, u32::MAX].into_iter();
    versions
        .flat_map(|version| refused("version not 1", 67, with(version)))
        .collect()
}

/// Sections that are unknown, repeated, out of order or too many.
fn section_keys() -> Vec<Own> {
    let keys: [&[u32]; 10] = [
        &[7],
        &[13],
        &[3],
        &[264],
        &[8, 8],
        &[9, 8],
        &[12, 11],
        &[8, 10, 9],
        &[8, 9, 10, 11, 12, 12],
        &[8, 9, 10, 11, 12, 13],
    ];
    let with = |keys: &[u32]| Manifest {
        sections: keys.iter().map(|&key| (key, Sequence::new())).collect(),
        ..sample()
    };
    keys.iter()
        .flat_map(|keys| refused("keys of sections", 66, encode(&with(keys))))
        .collect()
}

/// Length is told first, and each identifier before the next.
fn repeated_identifiers() -> Vec<Own> {
    let shows = "identifier twice";
    let with = |names: &[&[u8]]| {
        let components = names.iter().map(|name| vec![name.to_vec()]).collect();
        encode(&Manifest {
            components,
            ..sample()
        })
    };
    let single = |names: &[u8]| with(&names.chunks(1).collect::<Vec<_>>());
    let long = &[b'l'; 30][..];
    let mut cases = Vec::new();
    for names in [&b"aa"[..], b"aba", b"abba", b"abcdefgg", b"abcdefga"] {
        cases.extend(refused(shows, 68, single(names)));
    }
    cases.extend(refused(shows, 68, with(&[b"a", b"a", long])));
    cases.extend(refused(shows, 66, with(&[b"a", long, long])));
    cases.extend(refused(shows, 66, with(&[b"a", long, b"a"])));
    cases
}

/// In common and every section.
fn unlisted_codes() -> Vec<Own> {
    let mut cases = Vec::new();
    for key in SECTIONS {
        let manifest = manifest(1, vec![(key, vec![passes(), nil(13)])]);
        cases.extend(refused("code not listed", 69, encode(&manifest)));
    }
    for code in [0, 4, 11, 16, 18, 24, 29, 31, 33, 255, 256, 268, u32::MAX] {
        let manifest = manifest(1, vec![(COMMON, vec![nil(code)])]);
        let case = check(encode(&manifest));
        cases.push(Own::new("code not listed", Reached::Refused(69), case));
    }
    cases
}

/// Told before the argument, which is wrong too.
fn misplaced_codes() -> Vec<Own> {
    let rows = [
        (FETCH, COMMON),
        (FETCH, 10),
        (COPY, 12),
        (RUN, 9),
        (SWAP, 10),
    ];
    let wrong = |code, key| {
        let argument = Argument::Number(0);
        encode(&manifest(1, vec![(key, vec![Command { code, argument }])]))
    };
    rows.into_iter()
        .flat_map(|(code, key)| refused("code not allowed there", 71, wrong(code, key)))
        .collect()
}

fn with_parameters(parameters: Vec<Parameter>) -> Vec<u8> {
    let [set, override_with] =
        [Command::set, Command::override_with].map(|f| f(parameters.clone()));
    encode(&manifest(2, vec![(COMMON, vec![set, override_with])]))
}

fn unlisted_parameters() -> Vec<Own> {
    let with = |key| {
        let value = Value::Number(0);
        with_parameters(vec![Parameter { key, value }])
    };
    [0, 1, 3, 4, 5, 7, 9, 13, 24, 258, u32::MAX]
        .into_iter()
        .flat_map(|key| refused("parameter not listed", 70, with(key)))
        .collect()
}

fn parameter_order() -> Vec<Own> {
    let (size, digest) = (Parameter::size(1), Parameter::digest(pool::DIGEST));
    let unlisted = Parameter {
        key: 3,
        value: Value::Number(0),
    };
    [
        vec![size.clone(), digest.clone()],
        vec![digest.clone(), digest],
        vec![Parameter::source(1), Parameter::coerce(true)],
        vec![size, unlisted],
    ]
    .into_iter()
    .flat_map(|parameters| refused("parameters out of order", 66, with_parameters(parameters)))
    .collect()
}

/// The first number that is not below the count, and ones that end in a good byte.
fn indexes() -> Vec<Own> {
    let mut cases = Vec::new();
    for index in [2, 255, 256, 65_536] {
        let set = manifest(2, vec![(COMMON, vec![Command::index(index)])]);
        let source = with_parameters(vec![Parameter::source(index)]);
        cases.extend(refused("index not below the count", 72, encode(&set)));
        cases.extend(refused("source not below the count", 72, source));
    }
    cases
}

/// Bytes behind the contents of a sequence, and behind the envelope.
fn left_over() -> Vec<Own> {
    let nested = |bytes: &[u8]| {
        let argument = Argument::Raw(bytes.to_vec());
        let command = Command { code: 30, argument };
        encode(&manifest(1, vec![(COMMON, vec![command])]))
    };
    let behind = |byte| [encode(&sample()), vec![byte]].concat();
    [
        nested(&[0x42, 0x80, 0x00]),
        nested(&[0x44, 0x82, 0x03, 0xf6, 0x03]),
        behind(0x00),
        behind(0xff),
    ]
    .into_iter()
    .flat_map(|envelope| refused("bytes left over", 65, envelope))
    .collect()
}
