//! Conditions, parameters, the index and the sections of a group.

use super::scene::{
    as_it_is, fails, image, manifest, matches, nil, passes, ran, scene, setting, COMMON, SECTIONS,
};
use super::setting::Setting;
use super::Own;
use crate::gen::encode::encode;
use crate::gen::model::{self, Command, Parameter};
use crate::gen::pool;
use crate::reading::Group;
use crate::tally::Reached;

const OTHER_DIGEST: [u8; 32] = [0x33; 32];

pub fn cases() -> Vec<Own> {
    [
        identities(),
        image_match(),
        unset(),
        set_and_override(),
        components(),
        indexes(),
        sections(),
        later_sections(),
    ]
    .concat()
}

/// Each byte counts.
fn identities() -> Vec<Own> {
    let mut cases = Vec::new();
    for (code, wanted) in [(model::VENDOR, pool::VENDOR), (model::CLASS, pool::CLASS)] {
        let mut add = |identity, end| {
            let sequence = vec![Command::identity(code, identity)];
            cases.extend(scene("vendor and class", COMMON, sequence, end, as_it_is));
        };
        add(wanted, 0);
        for at in [0, 7, 15] {
            let mut other = wanted;
            other[at] ^= 0x80;
            add(other, 1);
        }
    }
    cases
}

fn image_match() -> Vec<Own> {
    let mut cases = Vec::new();
    let mut add = |parameters: Vec<Parameter>, end, change: fn(&mut Setting)| {
        let sequence = vec![Command::set(parameters), matches()];
        cases.extend(scene("image match", COMMON, sequence, end, change));
    };
    let digest = || vec![Parameter::digest(pool::DIGEST)];
    add(image(), 0, as_it_is);
    add(digest(), 0, |setting| setting.slots[0].size = 0);
    add(image(), 1, |setting| setting.slots[0].size = pool::SIZE - 1);
    add(image(), 1, |setting| setting.slots[0].digest[0] ^= 1);
    add(image(), 1, |setting| setting.slots[0].digest[31] ^= 1);
    add(image(), 1, |setting| setting.slots[0].present = 0);
    add(image(), 0, |setting| setting.slots[0].present = 2);
    add(image(), 0, |setting| setting.slots[1].present = 0);
    cases
}

/// Failure 32 comes first, and nothing catches it.
fn unset() -> Vec<Own> {
    let shows = "parameter unset";
    let size = || Command::set(vec![Parameter::size(pool::SIZE)]);
    let coerced = || Command::set(vec![Parameter::coerce(true)]);
    let absent = |setting: &mut Setting| setting.slots[0].present = 0;
    let caught = vec![Command::sequence(vec![coerced(), matches()]), passes()];
    let alternatives = vec![vec![matches()], vec![passes()]];
    [
        scene(shows, COMMON, vec![matches()], 32, as_it_is),
        scene(shows, COMMON, vec![matches()], 32, absent),
        scene(shows, COMMON, vec![size(), matches()], 32, as_it_is),
        scene(shows, COMMON, caught, 32, as_it_is),
        scene(
            shows,
            COMMON,
            vec![Command::try_each(alternatives)],
            32,
            as_it_is,
        ),
    ]
    .concat()
}

fn set_and_override() -> Vec<Own> {
    let digest = |digest| vec![Parameter::digest(digest)];
    let (good, other) = (|| digest(pool::DIGEST), || digest(OTHER_DIGEST));
    let add = |first, second, end| {
        let sequence = vec![first, second, matches()];
        scene("set and override", COMMON, sequence, end, as_it_is)
    };
    [
        add(Command::set(good()), Command::set(other()), 0),
        add(Command::set(other()), Command::set(good()), 1),
        add(Command::set(other()), Command::override_with(good()), 0),
        add(Command::override_with(good()), Command::set(other()), 0),
        add(
            Command::override_with(good()),
            Command::override_with(other()),
            1,
        ),
        add(
            Command::set(good()),
            Command::set(vec![Parameter::size(1)]),
            1,
        ),
        add(
            Command::set(image()),
            Command::set(vec![Parameter::size(1)]),
            0,
        ),
    ]
    .concat()
}

/// Parameters are each component's own.
fn components() -> Vec<Own> {
    let there = || Command::index(1);
    let back = || Command::index(0);
    let set = || Command::set(image());
    let shows = "parameters by component";
    [
        scene(shows, COMMON, vec![set(), there(), matches()], 32, as_it_is),
        scene(
            shows,
            COMMON,
            vec![there(), set(), back(), matches()],
            32,
            as_it_is,
        ),
        scene(
            shows,
            COMMON,
            vec![set(), there(), back(), matches()],
            0,
            as_it_is,
        ),
    ]
    .concat()
}

/// A nested sequence starts with its caller's index, which comes back afterwards.
fn indexes() -> Vec<Own> {
    let shows = "nested index comes back";
    let inner = || vec![passes(), Command::index(0), passes()];
    let nested = vec![Command::index(1), Command::sequence(inner()), passes()];
    let tried = vec![
        Command::index(1),
        Command::try_each(vec![inner()]),
        passes(),
    ];
    let failed = vec![Command::index(1), passes(), Command::index(0), fails()];
    let alternatives = Command::try_each(vec![failed, vec![passes(), Command::index(1)]]);
    let set = vec![
        Command::set(image()),
        Command::sequence(vec![Command::index(1)]),
        matches(),
    ];
    [
        scene(shows, COMMON, nested, 0, as_it_is),
        scene(shows, COMMON, tried, 0, as_it_is),
        scene(shows, COMMON, vec![alternatives, passes()], 0, as_it_is),
        scene(shows, COMMON, set, 0, as_it_is),
    ]
    .concat()
}

/// Each group does its sections in turn, each from index 0.
fn sections() -> Vec<Own> {
    let each = SECTIONS.map(|key| (key, vec![passes(), Command::index(1), passes()]));
    let manifest = manifest(2, each.to_vec());
    let envelope = encode(&manifest);
    let runs = Group::BOTH.into_iter().flat_map(|group| {
        let setting = setting(&manifest, group);
        ran(
            "sections of a group",
            &envelope,
            group,
            &setting,
            Reached::End(0),
        )
    });
    runs.collect()
}

/// Parameters last from section to section, and a failure ends the run where it is.
fn later_sections() -> Vec<Own> {
    let mut cases = Vec::new();
    for (group, keys) in Group::BOTH.into_iter().zip([[8, 9], [10, 12]]) {
        let first = (keys[0], vec![Command::set(image())]);
        for (last, end) in [(matches(), 0), (fails(), 1), (nil(model::ABORT), 33)] {
            let manifest = manifest(1, vec![first.clone(), (keys[1], vec![last, passes()])]);
            let setting = setting(&manifest, group);
            let wanted = Reached::End(end);
            cases.extend(ran(
                "later sections",
                &encode(&manifest),
                group,
                &setting,
                wanted,
            ));
        }
    }
    cases
}
