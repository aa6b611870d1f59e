//! Common before each section of a group that is present, or once where the
//! group has none.

use super::images::fetch;
use super::scene::{
    accepted, fails, image, manifest, matches, nil, passes, ran, setting, COMMON, SECTIONS,
};
use super::setting::{Setting, FETCHED};
use super::Own;
use crate::gen::encode::{encode, pad};
use crate::gen::model::{self, Command, Manifest, Parameter, Sequence};
use crate::gen::pool;
use crate::reading::{limits, Group};
use crate::tally::Reached;

const OTHER_DIGEST: [u8; 32] = [0x33; 32];

pub fn cases() -> Vec<Own> {
    [
        subsets(),
        empty_sequences(),
        indexes(),
        coerce(),
        parameters(),
        slots(),
        failures(),
        targets(),
        long_program(),
    ]
    .concat()
}

/// Every choice of sections.
pub fn choices() -> Vec<Vec<u32>> {
    let chosen = |choice: usize| {
        let keys = SECTIONS[1..].iter().enumerate();
        let keys = keys.filter(move |(bit, _)| choice >> bit & 1 == 1);
        keys.map(|(_, &key)| key).collect()
    };
    (0..32).map(chosen).collect()
}

/// One command in common, two in each of the sections.
pub fn with_sections(keys: &[u32]) -> Manifest {
    let mut sections = vec![(COMMON, vec![passes()])];
    let section = vec![Command::index(1), passes()];
    sections.extend(keys.iter().map(|&key| (key, section.clone())));
    manifest(2, sections)
}

fn subsets() -> Vec<Own> {
    let mut cases = Vec::new();
    for keys in choices() {
        let both = keys.iter().any(|key| *key < 10) && keys.iter().any(|key| *key >= 10);
        let shows = if both {
            "common before each section"
        } else {
            "common once where the group has no section"
        };
        cases.extend(accepted(shows, &with_sections(&keys), [0, 0]));
    }
    cases
}

/// A section without commands is present; common may have none, too.
fn empty_sequences() -> Vec<Own> {
    let shows = "common before an empty section";
    let empty = |keys: &[u32]| -> Vec<(u32, Sequence)> {
        keys.iter().map(|&key| (key, Sequence::new())).collect()
    };
    let common = vec![(COMMON, vec![passes()])];
    let after = |keys| manifest(1, [common.clone(), empty(keys)].concat());
    [
        accepted(shows, &after(&[8]), [0, 0]),
        accepted(shows, &after(&[8, 9, 11]), [0, 0]),
        accepted(shows, &after(&SECTIONS[1..]), [0, 0]),
        accepted(shows, &manifest(1, empty(&SECTIONS)), [0, 0]),
        accepted(shows, &manifest(1, empty(&SECTIONS[1..])), [0, 0]),
        accepted(shows, &manifest(1, Vec::new()), [0, 0]),
    ]
    .concat()
}

/// Common, and a section for each of the group's places; the last key of a
/// group gets the last sequence.
fn in_both(
    shows: &'static str,
    common: Sequence,
    sections: [Sequence; 2],
    end: usize,
    change: impl Fn(&mut Setting),
) -> Vec<Own> {
    let mut cases = Vec::new();
    for (group, keys) in [
        (Group::Install, [8, 9]),
        (Group::Boot, [10, 11]),
        (Group::Boot, [11, 12]),
    ] {
        let of = (group, keys);
        cases.extend(pair(shows, of, &common, &sections, end, &change));
    }
    cases
}

/// A run of common and two sections, under these keys of the group.
fn pair(
    shows: &'static str,
    (group, keys): (Group, [u32; 2]),
    common: &Sequence,
    sections: &[Sequence; 2],
    end: usize,
    change: &impl Fn(&mut Setting),
) -> Vec<Own> {
    let [first, second] = sections.clone();
    let rows = vec![
        (COMMON, common.clone()),
        (keys[0], first),
        (keys[1], second),
    ];
    let manifest = manifest(2, rows);
    let mut setting = setting(&manifest, group);
    change(&mut setting);
    let envelope = encode(&manifest);
    ran(shows, &envelope, group, &setting, Reached::End(end))
}

fn plain(shows: &'static str, common: Sequence, sections: [Sequence; 2], end: usize) -> Vec<Own> {
    in_both(shows, common, sections, end, |_| {})
}

/// Neither common's index nor a section's is there at the next start.
fn indexes() -> Vec<Own> {
    let shows = "common's repeat starts at index 0";
    let away = || vec![passes(), Command::index(1), passes()];
    let set = || vec![Command::set(image()), matches(), Command::index(1)];
    let there = || vec![Command::index(1), passes()];
    [
        plain(shows, away(), [there(), there()], 0),
        plain(shows, away(), [vec![passes()], vec![passes()]], 0),
        plain(shows, set(), [vec![matches()], vec![matches()]], 0),
    ]
    .concat()
}

fn coerced() -> Command {
    Command::override_with(vec![Parameter::coerce(true)])
}

fn digest(digest: [u8; 32]) -> Vec<Parameter> {
    vec![Parameter::digest(digest)]
}

/// The image matches before the first section, which asks for another one.
fn other_image() -> Sequence {
    vec![Command::override_with(digest(OTHER_DIGEST)), coerced()]
}

/// Coerce that was written before the repeat does not catch a failure in it.
fn coerce() -> Vec<Own> {
    let shows = "common's repeat starts without coerce";
    let set = Command::set(digest(pool::DIGEST));
    let alone = vec![set.clone(), matches(), coerced()];
    let inside = Command::sequence(vec![matches(), coerced()]);
    let caught = Command::sequence(vec![coerced(), matches()]);
    [
        plain(shows, alone, [other_image(), vec![passes()]], 1),
        plain(shows, vec![set.clone(), inside], [other_image(), vec![]], 1),
        plain(shows, vec![set, caught], [other_image(), vec![]], 0),
    ]
    .concat()
}

/// A repeated 19 is skipped, and a repeated 20 replaces.
fn parameters() -> Vec<Own> {
    let shows = "common's repeat keeps parameters";
    let good = || digest(pool::DIGEST);
    let other = || digest(OTHER_DIGEST);
    let first = |command: Command| vec![command, matches()];
    let second = |command: Command| vec![command];
    let then = || vec![matches()];
    let (set, put) = (Command::set, Command::override_with);
    // A 19 of the section fills what common did not set.
    let sized = || Command::set(vec![Parameter::size(1)]);
    [
        plain(shows, first(set(good())), [second(put(other())), then()], 1),
        plain(shows, first(put(good())), [second(put(other())), then()], 0),
        plain(shows, first(set(good())), [second(set(other())), then()], 0),
        plain(shows, first(set(good())), [second(sized()), then()], 1),
        plain(shows, first(set(image())), [second(sized()), then()], 0),
        plain(
            shows,
            first(put(image())),
            [second(put(other())), then()],
            0,
        ),
    ]
    .concat()
}

/// What a section did to a slot is there in common's repeat.
fn slots() -> Vec<Own> {
    let shows = "common's repeat meets the section's slots";
    let from_other = || vec![Command::set(vec![Parameter::source(1)]), nil(model::COPY)];
    let moved = |common: Sequence, end, change: fn(&mut Setting)| {
        let pairs = [(Group::Install, [8, 9]), (Group::Boot, [11, 12])];
        let sections = [from_other(), vec![]];
        let ran = |of| pair(shows, of, &common, &sections, end, &change);
        pairs.map(ran).concat()
    };
    let matched = vec![Command::set(image()), matches()];
    let tried = Command::try_each(vec![vec![matches()], vec![passes()]]);
    [
        moved(matched, 1, |setting| setting.slots[1].digest = OTHER_DIGEST),
        moved(vec![Command::set(image()), tried], 0, |setting| {
            setting.slots[0].present = 0
        }),
        fetched(shows),
    ]
    .concat()
}

/// The fetched image is matched in the repeat, and not before.
fn fetched(shows: &'static str) -> Vec<Own> {
    let tried = Command::try_each(vec![vec![matches()], vec![passes()]]);
    let common = vec![Command::set(digest(FETCHED)), tried];
    let manifest = manifest(
        1,
        vec![(COMMON, common), (8, fetch()), (9, vec![matches()])],
    );
    let mut setting = setting(&manifest, Group::Install);
    setting.answer(0, pool::SIZE);
    let envelope = encode(&manifest);
    ran(shows, &envelope, Group::Install, &setting, Reached::End(0))
}

/// A failure in common ends the run before the section.
fn failures() -> Vec<Own> {
    let shows = "failure in common";
    let abort = || nil(model::ABORT);
    [
        plain(shows, vec![fails()], [vec![abort()], vec![abort()]], 1),
        plain(shows, vec![abort()], [vec![fails()], vec![fails()]], 33),
        plain(shows, vec![matches()], [vec![fails()], vec![fails()]], 32),
        plain(shows, vec![passes()], [vec![fails()], vec![abort()]], 1),
        plain(shows, vec![passes()], [vec![passes()], vec![abort()]], 33),
    ]
    .concat()
}

/// Each repeat of common has targets of its own.
fn targets() -> Vec<Own> {
    let shows = "targets in common's repeat";
    let tried = || Command::try_each(vec![vec![fails()], vec![passes()], vec![passes()]]);
    let inside = Command::sequence(vec![coerced(), tried(), fails(), nil(model::ABORT)]);
    let both = Command::try_each(vec![vec![tried(), fails()], vec![inside.clone()]]);
    let mut cases = Vec::new();
    for common in [vec![tried()], vec![inside], vec![both, passes()]] {
        let mut sections = vec![(COMMON, common)];
        sections.extend(SECTIONS[1..].iter().map(|&key| (key, vec![tried()])));
        cases.extend(accepted(shows, &manifest(1, sections), [0, 0]));
    }
    cases
}

/// A long common three times.
fn long_program() -> Vec<Own> {
    let parameters = vec![
        Parameter::uri(vec![b'u'; limits::URI_BYTES]),
        Parameter::source(0),
        Parameter::digest(pool::DIGEST),
        Parameter::size(pool::SIZE),
    ];
    let mut sections = vec![(COMMON, vec![Command::override_with(parameters); 27])];
    sections.extend([10, 11, 12].map(|key| (key, vec![matches()])));
    let mut manifest = manifest(1, sections);
    pad(&mut manifest, limits::ENVELOPE_BYTES);
    accepted("long common three times", &manifest, [0, 0])
}
