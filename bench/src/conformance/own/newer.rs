//! The newer of two envelopes.

use super::scene::sample;
use super::Own;
use crate::gen::encode::{encode, pad};
use crate::gen::model::Manifest;
use crate::gen::Case;
use crate::reading::limits;
use crate::tally::Reached;

pub fn cases() -> Vec<Own> {
    [numbers(), refused(), longest()].concat()
}

fn numbered(number: u32) -> Vec<u8> {
    encode(&Manifest { number, ..sample() })
}

fn newer(shows: &'static str, wanted: Reached, first: &[u8], second: &[u8]) -> Own {
    let case = Case::Newer {
        first: first.to_vec(),
        second: second.to_vec(),
    };
    Own::new(shows, wanted, case)
}

fn numbers() -> Vec<Own> {
    let mut cases = Vec::new();
    for (one, other) in [(0, 1), (1, 2), (255, 256), (65_535, 65_536), (0, u32::MAX)] {
        let (older, newest) = (numbered(one), numbered(other));
        cases.push(newer("newer by number", Reached::Second, &older, &newest));
        cases.push(newer("newer by number", Reached::First, &newest, &older));
        cases.push(newer("newer: a tie", Reached::First, &newest, &newest));
        cases.push(newer("newer: a tie", Reached::First, &older, &older));
    }
    cases
}

/// One that check refuses is passed over, even where its number is larger.
fn refused() -> Vec<Own> {
    let good = numbered(1);
    let mut bad = numbered(2);
    bad.push(0);
    let mut cases = Vec::new();
    for bad in [&bad[..], &bad[..20], &[]] {
        let shows = "newer: one refused";
        cases.push(newer(shows, Reached::Second, bad, &good));
        cases.push(newer(shows, Reached::First, &good, bad));
        cases.push(newer("newer: both refused", Reached::Neither, bad, bad));
    }
    cases
}

fn longest() -> Vec<Own> {
    let padded = |bytes| {
        let mut manifest = Manifest {
            number: 9,
            ..sample()
        };
        pad(&mut manifest, bytes);
        encode(&manifest)
    };
    let (at, over) = (
        padded(limits::ENVELOPE_BYTES),
        padded(limits::ENVELOPE_BYTES + 1),
    );
    vec![
        newer(
            "envelope of 4,096 bytes",
            Reached::Second,
            &numbered(8),
            &at,
        ),
        newer(
            "envelope of 4,097 bytes",
            Reached::First,
            &numbered(8),
            &over,
        ),
    ]
}
