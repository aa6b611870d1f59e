//! Programs in rooms that fit and in ones that do not.

use super::scene::{program, sample, translate};
use super::Own;
use crate::gen::encode::encode;
use crate::reading::Group;
use crate::subjects::subjects;
use crate::tally::Reached;

const LARGEST_ROOM: usize = 65_535;

pub fn cases() -> Vec<Own> {
    let sample = encode(&sample());
    let mut cases = Vec::new();
    for group in Group::BOTH {
        cases.extend(close(&sample, group));
        for (shows, room, wanted) in [
            ("no room", 0, Reached::Refused(96)),
            ("more room", LARGEST_ROOM, Reached::Accepted),
        ] {
            let case = translate(sample.clone(), group, room);
            cases.push(Own::new(shows, wanted, case));
        }
    }
    for subject in subjects() {
        cases.extend(close(&subject.envelope, Group::Boot));
    }
    cases
}

fn close(envelope: &[u8], group: Group) -> Vec<Own> {
    let length = program(envelope, group).len();
    let case = |room| translate(envelope.to_vec(), group, room);
    vec![
        Own::new("room exact", Reached::Accepted, case(length)),
        Own::new("room one short", Reached::Refused(96), case(length - 1)),
    ]
}
