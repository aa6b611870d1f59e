//! Manifests and the cases that are made of each.

use super::setting::{Setting, NUMBER};
use super::Own;
use crate::gen::encode::{encode, encode_identifier};
use crate::gen::model::{self, Command, Manifest, Parameter, Sequence};
use crate::gen::{pool, Case};
use crate::reading::{self, Group};
use crate::tally::Reached;

/// Stands for common's sequence where a section's key is asked for.
pub const COMMON: u32 = 3;
pub const SECTIONS: [u32; 6] = [
    COMMON,
    model::PAYLOAD_FETCH_SECTION,
    model::INSTALL_SECTION,
    model::VALIDATE_SECTION,
    model::LOAD_SECTION,
    model::RUN_SECTION,
];
const OTHER: [u8; 16] = [9; 16];

pub fn manifest(components: u8, sections: Vec<(u32, Sequence)>) -> Manifest {
    let (common, sections): (Vec<_>, Vec<_>) =
        sections.into_iter().partition(|(key, _)| *key == COMMON);
    Manifest {
        authentication: None,
        version: 1,
        number: NUMBER,
        components: (0..components).map(|k| vec![vec![b'c', k]]).collect(),
        common: common.into_iter().map(|(_, sequence)| sequence).next(),
        sections,
    }
}

/// Installs by a match, and boots by a match and a start.
pub fn sample() -> Manifest {
    manifest(
        2,
        vec![
            (COMMON, vec![Command::set(image())]),
            (model::INSTALL_SECTION, vec![matches()]),
            (model::VALIDATE_SECTION, vec![matches()]),
            (model::RUN_SECTION, vec![nil(model::RUN)]),
        ],
    )
}

/// The ends of the sample, by group.
pub const SAMPLE_ENDS: [usize; 2] = [0, 2];

/// The parameters of the image that the slots hold.
pub fn image() -> Vec<Parameter> {
    vec![Parameter::digest(pool::DIGEST), Parameter::size(pool::SIZE)]
}

pub fn nil(code: u32) -> Command {
    Command::nil(code)
}

pub fn matches() -> Command {
    nil(model::IMAGE_MATCH)
}

/// A condition that holds.
pub fn passes() -> Command {
    Command::identity(model::VENDOR, pool::VENDOR)
}

/// A condition that fails.
pub fn fails() -> Command {
    Command::identity(model::CLASS, OTHER)
}

pub fn identifiers(manifest: &Manifest) -> Vec<Vec<u8>> {
    manifest.components.iter().map(encode_identifier).collect()
}

pub fn setting(manifest: &Manifest, group: Group) -> Setting {
    Setting::new(group, manifest.number, &identifiers(manifest))
}

/// The groups that do a section.
pub fn groups(key: u32) -> &'static [Group] {
    match key {
        COMMON => &Group::BOTH,
        model::PAYLOAD_FETCH_SECTION | model::INSTALL_SECTION => &[Group::Install],
        _ => &[Group::Boot],
    }
}

pub fn program(envelope: &[u8], group: Group) -> Vec<u8> {
    reading::translate(envelope, group, usize::MAX).expect("accepted")
}

pub fn check(envelope: Vec<u8>) -> Case {
    Case::Check { envelope }
}

pub fn translate(envelope: Vec<u8>, group: Group, room: usize) -> Case {
    Case::Translate {
        envelope,
        group,
        room: vec![Case::ROOM_FILL; room],
    }
}

pub fn run(envelope: Vec<u8>, group: Group, setting: &Setting) -> Case {
    Case::Run {
        envelope,
        group,
        world: setting.world(),
    }
}

pub fn run_program(program: Vec<u8>, setting: &Setting) -> Case {
    Case::RunProgram {
        program,
        world: setting.world(),
    }
}

/// Every job that checks refuses the envelope, whatever else is wrong.
pub fn refused(shows: &'static str, number: usize, envelope: Vec<u8>) -> Vec<Own> {
    let mut cases = vec![check(envelope.clone())];
    for group in Group::BOTH {
        cases.push(translate(envelope.clone(), group, 0));
        cases.push(run(envelope.clone(), group, &Setting::refused()));
    }
    let own = |case| Own::new(shows, Reached::Refused(number), case);
    cases.into_iter().map(own).collect()
}

/// Check accepts, and for each group the program fits its room exactly and
/// both runs end so.
pub fn accepted(shows: &'static str, manifest: &Manifest, ends: [usize; 2]) -> Vec<Own> {
    let envelope = encode(manifest);
    let mut cases = vec![Own::new(shows, Reached::Accepted, check(envelope.clone()))];
    for (group, end) in Group::BOTH.into_iter().zip(ends) {
        let setting = setting(manifest, group);
        cases.push(translated(shows, &envelope, group));
        cases.extend(ran(shows, &envelope, group, &setting, Reached::End(end)));
    }
    cases
}

/// The program fits its room exactly.
fn translated(shows: &'static str, envelope: &[u8], group: Group) -> Own {
    let room = program(envelope, group).len();
    let case = translate(envelope.to_vec(), group, room);
    Own::new(shows, Reached::Accepted, case)
}

/// A run by envelope and one by program.
pub fn ran(
    shows: &'static str,
    envelope: &[u8],
    group: Group,
    setting: &Setting,
    wanted: Reached,
) -> Vec<Own> {
    let by_program = run_program(program(envelope, group), setting);
    vec![
        Own::new(shows, wanted, run(envelope.to_vec(), group, setting)),
        Own::new(shows, wanted, by_program),
    ]
}

/// The program and both runs of a manifest of two components with one
/// sequence, for each group that does it.
pub fn scene(
    shows: &'static str,
    key: u32,
    sequence: Sequence,
    end: usize,
    change: impl Fn(&mut Setting),
) -> Vec<Own> {
    let manifest = manifest(2, vec![(key, sequence)]);
    let envelope = encode(&manifest);
    let mut cases = Vec::new();
    for &group in groups(key) {
        let mut setting = setting(&manifest, group);
        change(&mut setting);
        cases.push(translated(shows, &envelope, group));
        cases.extend(ran(shows, &envelope, group, &setting, Reached::End(end)));
    }
    cases
}

/// Changes nothing.
pub fn as_it_is(_: &mut Setting) {}
