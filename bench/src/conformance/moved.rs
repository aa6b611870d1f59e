//! The vectors of document 01 that T-01 moved, by their lines.

/// What moved an answer.
#[derive(Clone, Copy, Debug, PartialEq, Eq)]
pub enum Reason {
    /// The commands of common weigh more: 74, or 74 at an earlier code.
    Weight,
    /// The program repeats the records of common, and may no longer fit its room.
    Records,
    /// The run does common again.
    Events,
}

impl Reason {
    /// Whether an answer can be due to it.
    pub fn explains(self, line: &str) -> bool {
        match self {
            Reason::Weight => line.starts_with("refused 74 "),
            Reason::Records => line.starts_with("program ") || line == "refused 96 0",
            Reason::Events => line.starts_with("end "),
        }
    }
}

/// What moved the vector of this line, counted from 1.
pub fn moved(number: usize) -> Option<Reason> {
    let rows = [
        (Reason::Weight, &WEIGHT[..]),
        (Reason::Records, &RECORDS),
        (Reason::Events, &EVENTS),
    ];
    let mut rows = rows.into_iter();
    let (reason, _) = rows.find(|(_, lines)| lines.contains(&number))?;
    Some(reason)
}

const WEIGHT: [usize; 19] = [
    7, 17, 67, 89, 94, 102, 246, 256, 341, 348, 449, 472, 476, 506, 563, 565, 615, 692, 724,
];

const RECORDS: [usize; 17] = [
    72, 236, 382, 422, 591, 653, 774, 874, 913, 931, 950, 966, 1017, 1053, 1077, 1082, 1187,
];

/// One of them, the last, ends otherwise.
const EVENTS: [usize; 58] = [
    74, 147, 242, 413, 420, 425, 433, 547, 642, 691, 706, 734, 797, 816, 819, 832, 901, 962, 979,
    992, 1064, 1066, 1085, 1095, 1134, 1232, 1292, 1301, 1305, 1321, 1390, 1416, 1432, 1578, 1596,
    1657, 1802, 1803, 1970, 1979, 2009, 2100, 2101, 2122, 2135, 2158, 2188, 2189, 2190, 2198, 2263,
    2267, 2292, 2296, 2312, 2324, 2353, 2376,
];
