use super::encode::encode;
use super::manifest::manifest;
use super::program::LONGEST;
use super::{edge, Case, Generator, Job, Rng};
use crate::answer::answer;
use crate::jobs::Reading;
use crate::reading::{check, limits};
use crate::tally::{Reached, Tally};

const CHECKED: [usize; 11] = [64, 65, 66, 67, 68, 69, 70, 71, 72, 73, 74];
const ADMITTED: [usize; 7] = [80, 81, 82, 83, 84, 85, 86];
const ENDS: [usize; 10] = [0, 1, 2, 32, 33, 34, 35, 36, 37, 38];

fn tally(inputs: usize) -> Tally {
    let mut tally = Tally::default();
    for case in Generator::new(1).take(inputs) {
        tally.add(case.job(), &answer(&Reading, &case));
    }
    tally
}

#[test]
fn every_answer_is_reached() {
    let tally = tally(60_000);
    let expect = |job, reached| assert!(tally.count(job, reached) > 0, "{job:?} {reached}");
    for job in [Job::Check, Job::Translate] {
        expect(job, Reached::Accepted);
    }
    for job in [Job::Check, Job::Translate, Job::Run] {
        for number in CHECKED {
            expect(job, Reached::Refused(number));
        }
    }
    for reached in [Reached::First, Reached::Second, Reached::Neither] {
        expect(Job::Newer, reached);
    }
    for job in [Job::Run, Job::RunProgram] {
        for number in ADMITTED {
            expect(job, Reached::Refused(number));
        }
        for number in ENDS {
            expect(job, Reached::End(number));
        }
    }
    expect(Job::Translate, Reached::Refused(96));
    expect(Job::RunProgram, Reached::Refused(97));
}

#[test]
fn the_same_seed_gives_the_same_cases() {
    let cases = |seed| format!("{:?}", Generator::new(seed).take(50).collect::<Vec<_>>());
    assert_eq!(cases(7), cases(7));
    assert_ne!(cases(7), cases(8));
}

#[test]
fn the_limits_are_met() {
    let mut longest_envelope = 0;
    let mut longest_program = 0;
    for case in Generator::new(2).take(60_000) {
        if let Reached::Refused(_) = Reached::by(&answer(&Reading, &case)) {
            continue;
        }
        match case {
            Case::Check { envelope } => longest_envelope = longest_envelope.max(envelope.len()),
            Case::RunProgram { program, .. } => {
                longest_program = longest_program.max(program.len())
            }
            _ => {}
        }
    }
    assert_eq!(longest_envelope, limits::ENVELOPE_BYTES);
    assert_eq!(longest_program, LONGEST);
}

/// The limit of bytes never decides: what is longer has too many records.
#[test]
fn the_longest_program_is_below_the_limit() {
    assert_eq!((LONGEST, limits::PROGRAM_BYTES), (46_635, 49_152));
}

/// For each count of sections: accepted at the limit, and refused with 74 by
/// common alone and by a section.
#[test]
fn weights_are_met() {
    let mut rng = Rng::new(4);
    let mut met = [[0; 3]; 6];
    for _ in 0..4_000 {
        let mut manifest = manifest(&mut rng);
        edge::to_weight(&mut rng, &mut manifest);
        let sections = &mut met[manifest.sections.len()];
        match check(&encode(&manifest)).map_err(|refusal| refusal.number) {
            Ok(_) => sections[0] += usize::from(manifest.weight() == limits::COMMANDS),
            Err(74) if manifest.weight_in_common() > limits::COMMANDS => sections[1] += 1,
            Err(74) => sections[2] += 1,
            _ => {}
        }
    }
    for (sections, counts) in met.iter().enumerate() {
        let [accepted, by_common, by_section] = counts.map(|count| count > 20);
        assert!(accepted && by_common, "{met:?}");
        assert_eq!(by_section, sections > 0, "{met:?}");
    }
}
