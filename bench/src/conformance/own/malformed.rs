//! Programs that are not well formed.

use super::programs::{abort, bad, command, empty, failing, index, run, set, with};
use super::scene::run_program;
use super::setting::Setting;
use super::Own;
use crate::gen::model::{CLASS, COERCE, COPY, DIGEST, FETCH, RUN, SIZE, SOURCE, URI, VENDOR};
use crate::gen::pool;
use crate::gen::program::{entry, Program, Record, UNCAUGHT};
use crate::reading::Group;
use crate::tally::Reached;

pub fn cases() -> Vec<Own> {
    [
        headers(),
        cut_short(),
        bytes(),
        targets(),
        jumps(),
        codes(),
        fields(),
        parameters(),
        refused_first(),
    ]
    .concat()
}

fn headers() -> Vec<Own> {
    let named = |identifiers: Vec<Vec<u8>>| Program {
        identifiers,
        ..with(Group::Install, Vec::new())
    };
    let nine = (0..9).map(|k| vec![k]).collect();
    let twice = vec![b"a".to_vec(), b"b".to_vec(), b"a".to_vec()];
    vec![
        bad("no component in a program", &named(Vec::new())),
        bad("9 components in a program", &named(nine)),
        bad(
            "identifier of 0 bytes in a program",
            &named(vec![Vec::new()]),
        ),
        bad(
            "identifier of 33 bytes in a program",
            &named(vec![vec![0; 33]]),
        ),
        bad("identifier twice in a program", &named(twice)),
    ]
}

/// Bytes that need not be a program, where one is admitted.
fn raw(shows: &'static str, bytes: Vec<u8>) -> Own {
    let program = empty(Group::Install);
    let setting = Setting::new(program.group, program.number, &program.identifiers);
    Own::new(shows, Reached::Refused(97), run_program(bytes, &setting))
}

/// A program of one record.
fn short() -> Vec<u8> {
    with(Group::Install, vec![index()]).encode()
}

/// Every start of a program, and one byte more.
fn cut_short() -> Vec<Own> {
    let program = short();
    let mut cases = Vec::new();
    for length in 0..program.len() {
        cases.push(raw("program cut short", program[..length].to_vec()));
    }
    for byte in [0x00, 0x53] {
        let longer = [&program[..], &[byte]].concat();
        cases.push(raw("program with bytes left over", longer));
    }
    cases
}

/// A mark, a kind, the group or a count that is another.
fn bytes() -> Vec<Own> {
    let changes = [
        (0, 0x54),
        (1, 0x51),
        (2, 0xfd),
        (3, 2),
        (8, 1),
        (8, 3),
        (10, 0),
        (10, 2),
        (11, 0x00),
        (13, 0xfe),
        (25, 0x54),
        (26, 0x54),
    ];
    let changed = |(at, byte): (usize, u8)| {
        let mut program = short();
        program[at] = byte;
        raw("another byte in a program", program)
    };
    changes.into_iter().map(changed).collect()
}

fn install(shows: &'static str, records: Vec<Record>) -> Own {
    bad(shows, &with(Group::Install, records))
}

/// A target is greater than the record's number and at most the count.
fn targets() -> Vec<Own> {
    let shows = "target of a program";
    let rows = [
        vec![failing(0), abort()],
        vec![index(), failing(1)],
        vec![index(), failing(0)],
        vec![failing(2)],
        vec![failing(0xfffe)],
        vec![Record::jump(0)],
        vec![index(), Record::jump(1)],
        vec![Record::jump(2)],
        vec![Record::jump(UNCAUGHT.into())],
        vec![Record {
            target: 1,
            ..index()
        }],
        vec![Record {
            target: 1,
            ..abort()
        }],
        vec![Record {
            target: 1,
            ..set(&[])
        }],
    ];
    rows.into_iter()
        .map(|records| install(shows, records))
        .collect()
}

fn jumps() -> Vec<Own> {
    let jump = || Record::jump(1);
    let rows = [
        Record {
            component: 1,
            ..jump()
        },
        Record { place: 1, ..jump() },
        Record {
            argument: vec![0],
            ..jump()
        },
    ];
    let rows = rows.into_iter();
    rows.map(|record| install("fields of a jump", vec![record]))
        .collect()
}

/// Codes that have no record, and ones of the other group.
fn codes() -> Vec<Own> {
    let nil = |code| command(code, UNCAUGHT, &[]);
    let mut cases = Vec::new();
    for code in [0, 4, 11, 13, 15, 16, 18, 24, 30, 31, 33, 0xfd, 0xfe] {
        for group in Group::BOTH {
            cases.push(bad("code of a record", &with(group, vec![nil(code)])));
        }
    }
    let shows = "code of the other group";
    cases.push(bad(shows, &with(Group::Boot, vec![nil(FETCH)])));
    cases.push(bad(shows, &with(Group::Install, vec![nil(RUN)])));
    let own = "code of its own group";
    let fetch = with(Group::Install, vec![nil(FETCH)]);
    cases.push(run(own, Reached::End(32), &fetch));
    for group in Group::BOTH {
        let copy = with(group, vec![nil(COPY)]);
        cases.push(run(own, Reached::End(32), &copy));
    }
    cases.push(run(
        own,
        Reached::End(2),
        &with(Group::Boot, vec![nil(RUN)]),
    ));
    cases
}

/// Components and lengths of arguments.
fn fields() -> Vec<Own> {
    let shows = "fields of a record";
    let rows = [
        Record {
            component: 2,
            ..index()
        },
        Record {
            component: 255,
            ..abort()
        },
        Record {
            component: 2,
            ..set(&[])
        },
        command(VENDOR, UNCAUGHT, &[1; 15]),
        command(VENDOR, UNCAUGHT, &[1; 17]),
        command(CLASS, UNCAUGHT, &[]),
        command(COPY, UNCAUGHT, &[0]),
        Record {
            argument: vec![0],
            ..index()
        },
        Record {
            argument: vec![0],
            ..abort()
        },
    ];
    let rows = rows.into_iter();
    rows.map(|record| install(shows, vec![record])).collect()
}

fn parameters() -> Vec<Own> {
    let (digest, size) = (entry(DIGEST, &pool::DIGEST), entry(SIZE, &[0; 4]));
    let rows = [
        ("URI of 0 bytes in a program", entry(URI, &[])),
        ("URI of 97 bytes in a program", entry(URI, &[b'u'; 97])),
        ("source in a program", entry(SOURCE, &[2])),
        ("source in a program", entry(SOURCE, &[])),
        ("source in a program", entry(SOURCE, &[0, 0])),
        ("digest in a program", entry(DIGEST, &[1; 31])),
        ("digest in a program", entry(DIGEST, &[1; 33])),
        ("size in a program", entry(SIZE, &[0; 3])),
        ("size in a program", entry(SIZE, &[0; 5])),
        ("parameters of a program", entry(COERCE, &[1])),
        ("parameters of a program", entry(3, &[1])),
        (
            "parameters of a program",
            [size.clone(), digest.clone()].concat(),
        ),
        ("parameters of a program", [digest.clone(), digest].concat()),
        ("parameters of a program", size[..1].to_vec()),
        ("parameters of a program", size[..5].to_vec()),
        ("parameters of a program", [&size[..], &[0]].concat()),
    ];
    let rows = rows.into_iter();
    rows.map(|(shows, argument)| install(shows, vec![set(&argument)]))
        .collect()
}

/// 97 is told before anything that is lent.
fn refused_first() -> Vec<Own> {
    let program = with(Group::Install, vec![Record::jump(0)]).encode();
    let case = run_program(program, &Setting::refused());
    vec![Own::new("order of refusals", Reached::Refused(97), case)]
}
