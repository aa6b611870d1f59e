//! The command table of document 01: each code in each section, with each kind
//! of argument; each parameter with each kind of value.

use super::scene::{check, manifest, COMMON, SECTIONS};
use super::Own;
use crate::gen::encode::encode;
use crate::gen::model::{Argument, Command, Parameter, Sequence, Value};
use crate::gen::pool;
use crate::tally::Reached;

/// A row: code, kind of argument (a place in `arguments`) and allowed sections.
type Row = (u32, usize, &'static [u32]);

const NIL: usize = 0;
const IDENTITY: usize = 1;
const NUMBER: usize = 2;
const PARAMETERS: usize = 3;
const SEQUENCE: usize = 4;
const ALTERNATIVES: usize = 5;

const ROWS: [Row; 13] = [
    (1, IDENTITY, &SECTIONS),
    (2, IDENTITY, &SECTIONS),
    (3, NIL, &SECTIONS),
    (12, NUMBER, &SECTIONS),
    (14, NIL, &SECTIONS),
    (15, ALTERNATIVES, &SECTIONS),
    (19, PARAMETERS, &SECTIONS),
    (20, PARAMETERS, &SECTIONS),
    (21, NIL, &[8, 9]),
    (22, NIL, &[8, 9, 11]),
    (23, NIL, &[12]),
    (30, SEQUENCE, &SECTIONS),
    (32, NIL, &[8, 9, 11]),
];

pub fn cases() -> Vec<Own> {
    [allowed(), nested(), argument_kinds(), value_kinds()].concat()
}

/// One of each kind. The 16 bytes start like a sequence of one item.
fn arguments() -> [Argument; 6] {
    [
        Argument::Nil,
        Argument::Bytes([&[0x81], &[3; 15][..]].concat()),
        Argument::Number(0),
        Argument::Parameters(vec![Parameter::coerce(true)]),
        Argument::Sequence(Sequence::new()),
        Argument::Alternatives(vec![Sequence::new()]),
    ]
}

fn command(code: u32, kind: usize) -> Command {
    let argument = arguments()[kind].clone();
    Command { code, argument }
}

fn one(shows: &'static str, key: u32, command: Command, fault: Option<usize>) -> Own {
    let envelope = encode(&manifest(1, vec![(key, vec![command])]));
    let wanted = fault.map_or(Reached::Accepted, Reached::Refused);
    Own::new(shows, wanted, check(envelope))
}

fn allowed() -> Vec<Own> {
    let mut cases = Vec::new();
    for (code, kind, allowed) in ROWS {
        for key in SECTIONS {
            let fault = (!allowed.contains(&key)).then_some(71);
            cases.push(one("code and section", key, command(code, kind), fault));
        }
    }
    cases
}

/// The outermost section counts.
fn nested() -> Vec<Own> {
    let mut cases = Vec::new();
    for (code, kind, allowed) in ROWS {
        for key in SECTIONS {
            let inner = vec![command(code, kind)];
            let fault = (!allowed.contains(&key)).then_some(71);
            let outer = Command::try_each(vec![Sequence::new(), inner]);
            cases.push(one("code and outermost section", key, outer, fault));
        }
    }
    cases
}

fn argument_kinds() -> Vec<Own> {
    let mut cases = Vec::new();
    for (code, kind, allowed) in ROWS {
        for given in 0..arguments().len() {
            let fault = (given != kind).then_some(66);
            cases.push(one(
                "code and argument",
                allowed[0],
                command(code, given),
                fault,
            ));
        }
    }
    cases
}

fn value_kinds() -> Vec<Own> {
    let values = [
        Value::Boolean(false),
        Value::Text(vec![b'u'; 32]),
        Value::Number(0),
        Value::Bytes(pool::DIGEST.to_vec()),
    ];
    let mut cases = Vec::new();
    for (key, kind) in [(2, 0), (6, 1), (10, 2), (11, 3), (12, 2)] {
        for (given, value) in values.iter().enumerate() {
            let value = value.clone();
            let set = Command::set(vec![Parameter { key, value }]);
            let fault = (given != kind).then_some(66);
            cases.push(one("parameter and value", COMMON, set, fault));
        }
    }
    cases
}
