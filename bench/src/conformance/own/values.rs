//! Arguments at their limits and just over them.

use super::scene::{
    accepted, check, fails, manifest, nil, passes, ran, refused, sample, setting, COMMON,
    SAMPLE_ENDS,
};
use super::Own;
use crate::gen::encode::encode;
use crate::gen::model::{self, Argument, Command, Manifest, Parameter, Value};
use crate::gen::pool;
use crate::reading::Group;
use crate::tally::Reached;

pub fn cases() -> Vec<Own> {
    [alternatives(), parameters(), uri(), strings(), numbers()].concat()
}

fn with_common(command: Command) -> Manifest {
    manifest(1, vec![(COMMON, vec![command])])
}

fn alternatives() -> Vec<Own> {
    let with = |count: usize| {
        let mut alternatives = vec![vec![fails()]; count.saturating_sub(1)];
        alternatives.resize(count, vec![passes()]);
        with_common(Command::try_each(alternatives))
    };
    [
        accepted("1 alternative", &with(1), [0, 0]),
        accepted("4 alternatives", &with(4), [0, 0]),
        refused("5 alternatives", 66, encode(&with(5))),
        refused("no alternative", 66, encode(&with(0))),
    ]
    .concat()
}

fn parameters() -> Vec<Own> {
    let all = [
        Parameter::coerce(true),
        Parameter::uri(b"u".to_vec()),
        Parameter::source(0),
        Parameter::digest(pool::DIGEST),
        Parameter::size(pool::SIZE),
        Parameter::size(pool::SIZE),
    ];
    let with = |count: usize| with_common(Command::set(all[..count].to_vec()));
    [
        accepted("1 parameter", &with(1), [0, 0]),
        accepted("5 parameters", &with(5), [0, 0]),
        refused("6 parameters", 66, encode(&with(6))),
        refused("no parameter", 66, encode(&with(0))),
    ]
    .concat()
}

fn with_uri(bytes: usize) -> Manifest {
    let uri = Parameter::uri(vec![0xff; bytes]);
    let fetch = vec![Command::set(vec![uri]), nil(model::FETCH)];
    manifest(1, vec![(model::INSTALL_SECTION, fetch)])
}

fn uri() -> Vec<Own> {
    let mut cases = Vec::new();
    for (shows, bytes) in [("URI of 1 byte", 1), ("URI of 96 bytes", 96)] {
        let manifest = with_uri(bytes);
        cases.extend(accepted(shows, &manifest, [34, 0]));
        let mut setting = setting(&manifest, Group::Install);
        setting.answer(0, pool::SIZE);
        let envelope = encode(&manifest);
        cases.extend(ran(
            shows,
            &envelope,
            Group::Install,
            &setting,
            Reached::End(0),
        ));
    }
    cases.extend(refused("URI of 0 bytes", 66, encode(&with_uri(0))));
    cases.extend(refused("URI of 97 bytes", 66, encode(&with_uri(97))));
    cases
}

/// Vendor and class of 16 bytes and digests of 32 stand in every other file.
fn strings() -> Vec<Own> {
    let identity = |code, bytes| Command {
        code,
        argument: Argument::Bytes(vec![1; bytes]),
    };
    let digest = |bytes| {
        Command::set(vec![Parameter {
            key: model::DIGEST,
            value: Value::Bytes(vec![1; bytes]),
        }])
    };
    let mut cases = Vec::new();
    for (shows, bytes) in [("identity of 15 bytes", 15), ("identity of 17 bytes", 17)] {
        for code in [model::VENDOR, model::CLASS] {
            cases.extend(refused(
                shows,
                66,
                encode(&with_common(identity(code, bytes))),
            ));
        }
    }
    for (shows, bytes) in [("digest of 31 bytes", 31), ("digest of 33 bytes", 33)] {
        cases.extend(refused(shows, 66, encode(&with_common(digest(bytes)))));
    }
    cases
}

fn with_number(number: u32) -> Manifest {
    let mut manifest = sample();
    manifest.number = number;
    manifest
}

fn numbers() -> Vec<Own> {
    let mut cases = Vec::new();
    for number in [23, 24, 255, 256, 65_535, 65_536, u32::MAX - 1] {
        let case = check(encode(&with_number(number)));
        cases.push(Own::new("numbers by their heads", Reached::Accepted, case));
    }
    cases.extend(accepted(
        "number 4,294,967,295",
        &with_number(u32::MAX),
        SAMPLE_ENDS,
    ));
    let none = with_number(0);
    let [install, boot] = Group::BOTH.map(|group| setting(&none, group));
    let envelope = encode(&none);
    cases.extend(ran(
        "number 0",
        &envelope,
        Group::Boot,
        &boot,
        Reached::End(2),
    ));
    cases.extend(ran(
        "number 0",
        &envelope,
        Group::Install,
        &install,
        Reached::Refused(82),
    ));
    cases
}
