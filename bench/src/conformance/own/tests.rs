use super::common::{choices, with_sections};
use super::scene::{run, setting};
use super::{own, Own};
use crate::answer::{answer, Answer};
use crate::gen::encode::encode;
use crate::gen::Case;
use crate::jobs::Reading;
use crate::reading::Group;

/// The cases for a limit or rule.
fn of(shows: &str) -> Vec<Own> {
    let cases: Vec<Own> = own().into_iter().filter(|own| own.shows == shows).collect();
    assert!(!cases.is_empty(), "{shows}");
    cases
}

fn envelope(case: &Case) -> Option<&[u8]> {
    match case {
        Case::Check { envelope }
        | Case::Translate { envelope, .. }
        | Case::Run { envelope, .. } => Some(envelope),
        Case::Newer { second, .. } => Some(second),
        Case::RunProgram { .. } => None,
    }
}

/// The envelopes of the cases, and where check refuses each.
fn refusals(shows: &str) -> Vec<(Vec<u8>, usize)> {
    let refusal = |own: Own| match (&own.case, answer(&Reading, &own.case)) {
        (Case::Check { envelope }, Answer::Check(answer)) => Some((envelope.clone(), answer.place)),
        _ => None,
    };
    of(shows).into_iter().filter_map(refusal).collect()
}

fn programs(shows: &str) -> Vec<Vec<u8>> {
    let program = |own: Own| match own.case {
        Case::RunProgram { program, .. } => Some(program),
        _ => None,
    };
    of(shows).into_iter().filter_map(program).collect()
}

#[test]
fn envelopes_are_as_long_as_they_say() {
    for (shows, bytes) in [
        ("envelope of 4,096 bytes", 4096),
        ("envelope of 4,097 bytes", 4097),
    ] {
        for own in of(shows) {
            assert!(envelope(&own.case).is_none_or(|envelope| envelope.len() == bytes));
        }
    }
}

/// The deep sequence is the envelope's end: one command of 18 bytes, or none.
#[test]
fn depth_is_told_at_the_array_head() {
    for (envelope, place) in refusals("depth 5") {
        let head = if envelope.ends_with(&[1; 16]) { 19 } else { 1 };
        assert_eq!(place, envelope.len() - head);
    }
}

/// The command that is too many is the only condition.
#[test]
fn a_command_too_many_is_told_at_its_code() {
    let condition = [&[0x01, 0x50], &[1; 16][..]].concat();
    for (shows, count) in [
        ("no section: past 256", 2),
        ("1 section: past 256", 6),
        ("2 sections: past 256", 5),
        ("5 sections: past 256", 5),
    ] {
        let refusals = refusals(shows);
        assert_eq!(refusals.len(), count, "{shows}");
        for (envelope, place) in refusals {
            assert!(envelope[place..].starts_with(&condition), "{shows}");
        }
    }
}

/// It has nil for an argument, and in a section it is the envelope's end.
#[test]
fn a_wrong_command_too_many_is_told_at_its_code() {
    for (envelope, place) in refusals("past 256, the last wrong") {
        assert_eq!(envelope[place + 1], 0xf6);
        let nils = envelope.iter().filter(|&&byte| byte == 0xf6);
        assert_eq!(nils.count(), 2);
    }
}

/// Common has one command and each section two.
#[test]
fn common_runs_before_each_section() {
    for keys in choices() {
        let manifest = with_sections(&keys);
        for group in Group::BOTH {
            let case = run(encode(&manifest), group, &setting(&manifest, group));
            let Answer::Run { answer, trace, .. } = answer(&Reading, &case) else {
                panic!("a run");
            };
            let of_group = |key: &&u32| (**key < 10) == (group == Group::Install);
            let present = keys.iter().filter(of_group).count();
            let codes: Vec<u8> = trace.chunks(8).map(|event| event[2]).collect();
            let wanted = match present {
                0 => vec![1],
                _ => [1, 12, 1].repeat(present),
            };
            assert_eq!(codes[..answer.events], wanted, "{keys:?} {group:?}");
        }
    }
}

#[test]
fn a_trace_is_full() {
    for own in of("trace full of events") {
        if let Answer::Run { answer, trace, .. } = answer(&Reading, &own.case) {
            assert_eq!((answer.events, trace.len()), (256, 2048));
        }
    }
}

#[test]
fn programs_are_as_long_as_they_say() {
    for (shows, bytes) in [
        ("longest program, 46,635 bytes", 46_635),
        ("longest program and a jump", 46_645),
        ("program of 49,152 bytes", 49_152),
        ("program of 49,153 bytes", 49_153),
    ] {
        assert!(programs(shows).iter().all(|program| program.len() == bytes));
    }
    for (shows, records) in [("1,024 records", [4, 0]), ("1,025 records", [4, 1])] {
        assert!(programs(shows)
            .iter()
            .all(|program| program[9..11] == records));
    }
}
