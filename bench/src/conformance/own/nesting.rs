//! Try each, run sequence and coerce.

use super::scene::{as_it_is, fails, image, matches, nil, passes, scene, COMMON};
use super::setting::Setting;
use super::Own;
use crate::gen::model::{
    Command, Parameter, Sequence, ABORT, COPY, FETCH, INSTALL_SECTION, LOAD_SECTION,
};
use crate::gen::pool;

pub fn cases() -> Vec<Own> {
    [
        coerced(),
        not_coerced(),
        failures(),
        failed_fetches(),
        alternatives(),
        caught_outside(),
        kept(),
    ]
    .concat()
}

fn coerce(value: bool) -> Command {
    Command::override_with(vec![Parameter::coerce(value)])
}

fn set_coerce(value: bool) -> Command {
    Command::set(vec![Parameter::coerce(value)])
}

fn abort() -> Command {
    nil(ABORT)
}

fn nested(inner: Sequence) -> Command {
    Command::sequence(inner)
}

fn try_each(alternatives: &[Sequence]) -> Command {
    Command::try_each(alternatives.to_vec())
}

fn all(shows: &'static str, rows: Vec<(Sequence, usize)>) -> Vec<Own> {
    let rows = rows.into_iter();
    rows.flat_map(|(sequence, end)| scene(shows, COMMON, sequence, end, as_it_is))
        .collect()
}

fn coerced() -> Vec<Own> {
    let tried = || try_each(&[vec![fails()], vec![fails(), passes()]]);
    let rows = vec![
        vec![coerce(true), fails(), abort()],
        vec![set_coerce(true), fails(), abort()],
        vec![coerce(false), coerce(true), fails()],
        vec![set_coerce(false), set_coerce(true), fails()],
        vec![coerce(true), nested(vec![fails()]), abort()],
        vec![coerce(true), nested(vec![coerce(false), fails()]), abort()],
        vec![coerce(true), tried(), abort()],
    ];
    let rows = rows.into_iter();
    all(
        "coerce",
        rows.map(|inner| (vec![nested(inner), passes()], 0))
            .collect(),
    )
}

/// Coerce counts for the sequence it is written in, as it is when a condition
/// fails, and only inside a run sequence.
fn not_coerced() -> Vec<Own> {
    let rows = vec![
        vec![nested(vec![fails()])],
        vec![nested(vec![fails(), coerce(true)])],
        vec![nested(vec![coerce(true), coerce(false), fails()])],
        vec![nested(vec![set_coerce(true), set_coerce(false), fails()])],
        vec![nested(vec![nested(vec![coerce(true)]), fails()])],
        vec![nested(vec![try_each(&[vec![coerce(true)]]), fails()])],
        vec![coerce(true), fails()],
        vec![coerce(true), nested(vec![fails()])],
        vec![try_each(&[vec![coerce(true), fails()]])],
    ];
    all(
        "coerce that does not count",
        rows.into_iter().map(|row| (row, 1)).collect(),
    )
}

/// Coerce and try each catch conditions alone.
fn failures() -> Vec<Own> {
    let rows = vec![
        (vec![nested(vec![coerce(true), abort()]), passes()], 33),
        (vec![nested(vec![coerce(true), matches()]), passes()], 32),
        (vec![try_each(&[vec![abort()], vec![passes()]])], 33),
        (vec![try_each(&[vec![fails()], vec![abort()]])], 33),
        (vec![abort(), passes()], 33),
    ];
    all("coerce catches no abort or failed fetch", rows)
}

fn failed_fetches() -> Vec<Own> {
    let shows = "coerce catches no abort or failed fetch";
    let inner = vec![
        Command::set(vec![Parameter::coerce(true), Parameter::uri(vec![b'u'])]),
        nil(FETCH),
    ];
    let tried = try_each(&[inner.clone(), vec![passes()]]);
    let mut cases = Vec::new();
    for sequence in [vec![nested(inner)], vec![tried]] {
        let mut add = |end, change: fn(&mut Setting)| {
            cases.extend(scene(shows, INSTALL_SECTION, sequence.clone(), end, change));
        };
        add(34, as_it_is);
        add(35, |setting| setting.answer(1, 1));
        add(36, |setting| setting.answer(0, u32::MAX));
    }
    cases
}

fn alternatives() -> Vec<Own> {
    let (no, yes) = (|| vec![fails()], || vec![passes()]);
    let rows = vec![
        (vec![try_each(&[yes(), vec![abort()]]), passes()], 0),
        (vec![try_each(&[no(), yes(), vec![abort()]]), passes()], 0),
        (vec![try_each(&[no(), no(), no(), yes()])], 0),
        (vec![try_each(&[no(), no(), no(), no()]), abort()], 1),
        (vec![try_each(&[no()]), abort()], 1),
        (vec![try_each(&[vec![], vec![abort()]]), passes()], 0),
        (vec![try_each(&[no(), vec![]]), passes()], 0),
    ];
    all("try each", rows)
}

/// A last alternative's failure goes where the try each's own goes.
fn caught_outside() -> Vec<Own> {
    let failing = || try_each(&[vec![fails()], vec![fails()]]);
    let yes = || vec![passes()];
    let coerced = || nested(vec![coerce(true), failing(), abort()]);
    let rows = vec![
        (
            vec![try_each(&[vec![failing(), abort()], yes()]), passes()],
            0,
        ),
        (vec![try_each(&[vec![nested(vec![failing()])], yes()])], 0),
        (
            vec![try_each(&[vec![fails()], vec![failing()]]), abort()],
            1,
        ),
        (
            vec![try_each(&[vec![fails()], vec![coerced(), passes()]])],
            0,
        ),
        (vec![try_each(&[vec![coerced(), fails()], yes()])], 0),
        (
            vec![nested(vec![coerce(true), try_each(&[vec![failing()]])])],
            0,
        ),
    ];
    all("last alternative's failure is caught outside", rows)
}

/// Parameters, slots and events of a failed sequence stay.
fn kept() -> Vec<Own> {
    let shows = "failed alternative keeps its parameters";
    let failed = vec![Command::set(image()), fails()];
    let tried = vec![try_each(&[failed.clone(), vec![matches()]]), matches()];
    let coerced = nested([vec![coerce(true)], failed].concat());
    let copied = vec![
        Command::set(vec![Parameter::source(1), Parameter::digest(pool::DIGEST)]),
        nil(COPY),
        fails(),
    ];
    let moved = try_each(&[copied, vec![matches()]]);
    let absent = |setting: &mut Setting| setting.slots[0].present = 0;
    let mut cases = all(shows, vec![(tried, 0), (vec![coerced, matches()], 0)]);
    for key in [INSTALL_SECTION, LOAD_SECTION] {
        cases.extend(scene(
            "failed alternative keeps its slots",
            key,
            vec![moved.clone()],
            0,
            absent,
        ));
    }
    cases
}
