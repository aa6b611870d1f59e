//! Heads as a reader reads them, each at a place of an envelope.

use crate::conformance::head::HeadCase;
use crate::hex;

#[derive(Clone, Debug)]
pub struct OwnHead {
    /// The limit or rule that the case is for.
    pub shows: &'static str,
    /// The line that must answer it.
    pub wanted: String,
    pub case: HeadCase,
}

/// The major types whose heads have a number.
const KINDS: [u8; 5] = [0, 2, 3, 4, 5];
/// The first and the last number of each width, as the head of a number.
const NUMBERED: [(&str, &str, u32); 8] = [
    ("head: 0 to 23", "00", 0),
    ("head: 0 to 23", "17", 23),
    ("head: 24 to 255", "1818", 24),
    ("head: 24 to 255", "18ff", 255),
    ("head: 256 to 65,535", "190100", 256),
    ("head: 256 to 65,535", "19ffff", 65_535),
    ("head: 65,536 to 4,294,967,295", "1a00010000", 65_536),
    ("head: 65,536 to 4,294,967,295", "1affffffff", u32::MAX),
];
const SIMPLE: [(&str, u8); 3] = [("f4", 20), ("f5", 21), ("f6", 22)];
/// Heads of each width without their last byte.
const CUT: [&str; 3] = ["18", "19ff", "1affffff"];
/// Whole heads that no manifest may have.
const FOREIGN: [(&str, &str); 8] = [
    (
        "head: not shortest",
        "1817 1900ff 1a0000ffff 5817 7900ff 9a0000ffff b817",
    ),
    (
        "head: number of 8 bytes",
        "1b0000000000000000 1b0000000100000000 5b0000000100000000 \
         7b0000000100000000 9b0000000100000000 bb0000000100000000",
    ),
    ("head: reserved", "1c 1d 1e 1f 5c 7d 9e bc"),
    ("head: indefinite length", "5f 7f 9f bf"),
    (
        "head: negative number",
        "20 37 3818 390100 3a00010000 3b0000000100000000",
    ),
    ("head: tag", "c0 d7 d818"),
    ("head: other simple value", "e0 f3 f7 f814 f820 f8ff fc ff"),
    ("head: float", "f93c00 fa3f800000 fb3ff0000000000000"),
];
/// Stands after them, so that none is cut short.
const REST: [u8; 8] = [0; 8];
/// A head of each kind. The first four have one of each width.
const ROW: &str = "1affffffff590100781897a0f4f5f6";
const IN_ROW: [(&str, u16, &str); 13] = [
    ("head: in a row of heads", 0, "head 0 4294967295 5 10"),
    ("head: in a row of heads", 1, "refused 65 1"),
    ("head: in a row of heads", 5, "head 2 256 8 7"),
    ("head: in a row of heads", 6, "head 0 1 7 8"),
    ("head: in a row of heads", 8, "head 3 24 10 5"),
    ("head: in a row of heads", 10, "head 4 23 11 4"),
    ("head: in a row of heads", 11, "head 5 0 12 3"),
    ("head: in a row of heads", 12, "head 20 0 13 2"),
    ("head: in a row of heads", 13, "head 21 0 14 1"),
    ("head: at the last byte", 14, "head 22 0 15 0"),
    ("head: at the end and past it", 15, "refused 65 15"),
    ("head: at the end and past it", 16, "refused 65 16"),
    ("head: at the end and past it", 65_535, "refused 65 65535"),
];

pub fn own_heads() -> Vec<OwnHead> {
    [numbered(), simple(), cut(), foreign(), in_row(), in_none()].concat()
}

fn own(shows: &'static str, envelope: Vec<u8>, place: u16, wanted: String) -> OwnHead {
    let case = HeadCase { place, envelope };
    OwnHead {
        shows,
        wanted,
        case,
    }
}

fn bytes(text: &str) -> Vec<u8> {
    hex::decode(text).expect("hex")
}

/// The head of a number as one of another major type.
fn of_kind(kind: u8, head: &str) -> Vec<u8> {
    let mut head = bytes(head);
    head[0] |= kind << 5;
    head
}

fn numbered() -> Vec<OwnHead> {
    let mut cases = Vec::new();
    for kind in KINDS {
        for (shows, head, number) in NUMBERED {
            let head = of_kind(kind, head);
            let wanted = format!("head {kind} {number} {} 0", head.len());
            cases.push(own(shows, head, 0, wanted));
        }
    }
    cases
}

fn simple() -> Vec<OwnHead> {
    let case = |(head, kind)| {
        let wanted = format!("head {kind} 0 1 0");
        own("head: false, true and nil", bytes(head), 0, wanted)
    };
    SIMPLE.map(case).to_vec()
}

/// At the start, and after two numbers.
fn cut() -> Vec<OwnHead> {
    let mut cases = Vec::new();
    for kind in KINDS {
        for head in CUT {
            let head = of_kind(kind, head);
            let later = [&[0, 0], &head[..]].concat();
            let shows = "head: cut short";
            cases.push(own(shows, head, 0, "refused 65 0".into()));
            cases.push(own(shows, later, 2, "refused 65 2".into()));
        }
    }
    cases
}

fn foreign() -> Vec<OwnHead> {
    let mut cases = Vec::new();
    for (shows, heads) in FOREIGN {
        for head in heads.split(' ') {
            let envelope = [&bytes(head)[..], &REST].concat();
            cases.push(own(shows, envelope, 0, "refused 65 0".into()));
        }
    }
    cases
}

fn in_row() -> Vec<OwnHead> {
    let case = |(shows, place, wanted): (_, _, &str)| own(shows, bytes(ROW), place, wanted.into());
    IN_ROW.map(case).to_vec()
}

/// An envelope without bytes ends where it starts.
fn in_none() -> Vec<OwnHead> {
    let shows = "head: at the end and past it";
    let case = |place| own(shows, Vec::new(), place, format!("refused 65 {place}"));
    [0, 1].map(case).to_vec()
}
