//! Fetch, copy, swap and run.

use super::scene::{as_it_is, image, matches, nil, scene};
use super::setting::Setting;
use super::Own;
use crate::gen::model::{
    Command, Parameter, Sequence, COPY, FETCH, INSTALL_SECTION, LOAD_SECTION,
    PAYLOAD_FETCH_SECTION, RUN, RUN_SECTION, SWAP,
};
use crate::gen::pool;

const CAPACITY: u32 = 200;

pub fn cases() -> Vec<Own> {
    [
        fetches(),
        failed_fetches(),
        copies(),
        sources(),
        swaps(),
        with_itself(),
        present_bytes(),
        starts(),
    ]
    .concat()
}

fn uri() -> Command {
    Command::set(vec![Parameter::uri(b"coap://x".to_vec())])
}

pub fn fetch() -> Sequence {
    vec![uri(), nil(FETCH)]
}

fn fetches() -> Vec<Own> {
    let mut cases = Vec::new();
    let mut add = |sequence: Sequence, change: fn(&mut Setting)| {
        for key in [PAYLOAD_FETCH_SECTION, INSTALL_SECTION] {
            cases.extend(scene("fetch", key, sequence.clone(), 0, change));
        }
    };
    add(fetch(), |setting| setting.answer(0, CAPACITY));
    add(fetch(), |setting| {
        setting.slots[0].present = 0;
        setting.answer(0, 0);
        setting.answer(0, 1);
    });
    add([fetch(), fetch()].concat(), |setting| {
        setting.answer(0, 1);
        setting.answer(0, 2);
    });
    add(
        [fetch(), vec![Command::index(1)], fetch()].concat(),
        |setting| {
            setting.slots[0].capacity = u32::MAX;
            setting.answer(0, u32::MAX);
            setting.answer(0, 2);
        },
    );
    cases
}

/// An answer is used up by 35 and 36, not by 32 or 34.
fn failed_fetches() -> Vec<Own> {
    let mut cases = Vec::new();
    let mut add = |sequence: Sequence, end, change: fn(&mut Setting)| {
        for key in [PAYLOAD_FETCH_SECTION, INSTALL_SECTION] {
            cases.extend(scene("failed fetch", key, sequence.clone(), end, change));
        }
    };
    add(vec![nil(FETCH)], 32, |setting| setting.answer(0, 1));
    add(fetch(), 34, as_it_is);
    add([fetch(), fetch()].concat(), 34, |setting| {
        setting.answer(0, 1)
    });
    add(fetch(), 35, |setting| setting.answer(1, 1));
    add(fetch(), 35, |setting| setting.answer(255, CAPACITY + 1));
    add(fetch(), 36, |setting| setting.answer(0, CAPACITY + 1));
    add(fetch(), 36, |setting| setting.answer(0, u32::MAX));
    cases
}

fn from_source(code: u32) -> Sequence {
    vec![Command::set(vec![Parameter::source(1)]), nil(code)]
}

/// The sections where a group may copy or swap.
const MOVING: [u32; 3] = [PAYLOAD_FETCH_SECTION, INSTALL_SECTION, LOAD_SECTION];

fn moved(
    shows: &'static str,
    sequence: Sequence,
    end: usize,
    change: fn(&mut Setting),
) -> Vec<Own> {
    let keys = MOVING.into_iter();
    keys.flat_map(|key| scene(shows, key, sequence.clone(), end, change))
        .collect()
}

fn copies() -> Vec<Own> {
    let copy = |end, change| moved("copy", from_source(COPY), end, change);
    [
        moved("copy", vec![nil(COPY)], 32, as_it_is),
        copy(0, |setting| setting.slots[1].digest = [0x44; 32]),
        copy(0, |setting| setting.slots[0].present = 0),
        copy(37, |setting| setting.slots[1].present = 0),
        copy(0, |setting| setting.slots[1].size = CAPACITY),
        copy(36, |setting| {
            setting.slots[1].size = CAPACITY + 1;
            setting.slots[1].capacity = u32::MAX;
        }),
        copy(37, |setting| {
            setting.slots[1].size = CAPACITY + 1;
            setting.slots[1].present = 0;
        }),
    ]
    .concat()
}

/// Source 1 is what counts, set first or put in the place of another.
fn sources() -> Vec<Own> {
    let source = |index| vec![Parameter::source(index)];
    let set = |index| Command::set(source(index));
    let other = |setting: &mut Setting| setting.slots[1].digest = [0x44; 32];
    let kept = vec![set(1), set(0), nil(COPY)];
    let replaced = vec![set(0), Command::override_with(source(1)), nil(COPY)];
    [
        moved("copy", kept, 0, other),
        moved("copy", replaced, 0, other),
    ]
    .concat()
}

fn swaps() -> Vec<Own> {
    let swap = |end, change| moved("swap", from_source(SWAP), end, change);
    [
        moved("swap", vec![nil(SWAP)], 32, as_it_is),
        swap(0, |setting| {
            setting.slots[1].digest = [0x44; 32];
            setting.slots[1].size = CAPACITY;
        }),
        swap(37, |setting| setting.slots[0].present = 0),
        swap(37, |setting| setting.slots[1].present = 0),
        swap(36, |setting| {
            setting.slots[1].size = CAPACITY + 1;
            setting.slots[1].capacity = u32::MAX;
        }),
        swap(36, |setting| {
            setting.slots[1].size = pool::SIZE - 1;
            setting.slots[1].capacity = pool::SIZE - 1;
        }),
    ]
    .concat()
}

/// Self copy or swap of a present slot changes nothing.
fn with_itself() -> Vec<Own> {
    let mut cases = Vec::new();
    for code in [COPY, SWAP] {
        let sequence = vec![Command::set(vec![Parameter::source(0)]), nil(code)];
        let absent = |setting: &mut Setting| setting.slots[0].present = 0;
        cases.extend(moved("with itself", sequence.clone(), 0, as_it_is));
        cases.extend(moved("with itself", sequence, 37, absent));
    }
    cases
}

/// A present byte is yes where it is not 0, and goes with its image.
fn present_bytes() -> Vec<Own> {
    let other = |setting: &mut Setting| {
        setting.slots[0].present = 2;
        setting.slots[1].present = 255;
    };
    let mut cases = Vec::new();
    for code in [COPY, SWAP] {
        cases.extend(moved("present bytes", from_source(code), 0, other));
    }
    cases
}

fn starts() -> Vec<Own> {
    let shows = "run";
    let there = vec![Command::index(1), nil(RUN), nil(RUN)];
    let coerced = Command::set(vec![Parameter::coerce(true)]);
    let nested = Command::sequence(vec![coerced, nil(RUN)]);
    let tried = Command::try_each(vec![vec![nil(RUN)], vec![nil(RUN)]]);
    let matched = vec![Command::set(image()), matches(), nil(RUN)];
    let absent = |setting: &mut Setting| setting.slots[0].present = 0;
    [
        scene(shows, RUN_SECTION, there, 2, absent),
        scene(
            shows,
            RUN_SECTION,
            vec![nested.clone(), nil(RUN)],
            2,
            as_it_is,
        ),
        scene(
            shows,
            RUN_SECTION,
            vec![tried.clone(), nil(RUN)],
            2,
            as_it_is,
        ),
        scene(shows, RUN_SECTION, matched, 2, as_it_is),
        scene(shows, RUN_SECTION, vec![nil(RUN)], 38, absent),
        scene(shows, RUN_SECTION, vec![nested], 38, absent),
        scene(shows, RUN_SECTION, vec![tried], 38, absent),
    ]
    .concat()
}
