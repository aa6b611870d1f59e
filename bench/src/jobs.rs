//! The reading's answers to the five jobs, and its program test.

use crate::answer::{CheckAnswer, Jobs, Lent, NewerAnswer, RunAnswer, TranslateAnswer};
use crate::gen::World;
use crate::reading::{self, Group, Manifest, Outcome, Refusal, Section, Span};

pub struct Reading;

impl Jobs for Reading {
    fn check(&self, envelope: &[u8]) -> CheckAnswer {
        match reading::check(envelope) {
            Ok(manifest) => accepted(&manifest),
            Err(refusal) => CheckAnswer {
                refusal: refusal.number.into(),
                place: refusal.place,
                ..CheckAnswer::default()
            },
        }
    }

    fn newer(&self, first: &[u8], second: &[u8]) -> NewerAnswer {
        let (second, from, to) = reading::newer(first, second);
        NewerAnswer { second, from, to }
    }

    fn translate(&self, envelope: &[u8], group: Group, room: &mut [u8]) -> TranslateAnswer {
        match reading::translate(envelope, group, room.len()) {
            Ok(program) => {
                room[..program.len()].copy_from_slice(&program);
                TranslateAnswer {
                    length: program.len(),
                    ..TranslateAnswer::default()
                }
            }
            Err(refusal) => TranslateAnswer {
                refusal: refusal.number.into(),
                place: refusal.place,
                length: 0,
            },
        }
    }

    fn test_program(&self, program: &[u8]) -> bool {
        reading::test_program(program)
    }

    fn run(&self, envelope: &[u8], group: Group, world: &World, lent: &mut Lent) -> RunAnswer {
        let result = reading::run(
            envelope,
            group,
            world.verdict,
            &world.device,
            &mut lent.slots,
            &world.answers,
            &mut lent.trace,
        );
        ended(result, world)
    }

    fn run_program(&self, program: &[u8], world: &World, lent: &mut Lent) -> RunAnswer {
        let result = reading::run_program(
            program,
            world.verdict,
            &world.device,
            &mut lent.slots,
            &world.answers,
            &mut lent.trace,
        );
        ended(result, world)
    }
}

fn accepted(manifest: &Manifest) -> CheckAnswer {
    let sequences = Section::ALL.map(|section| manifest.sequence(section).unwrap_or_default());
    CheckAnswer {
        number: manifest.number as usize,
        components: manifest.components.count(),
        ids: flat(manifest.components.spans()),
        sections: flat(&sequences),
        from: manifest.span.from,
        to: manifest.span.to,
        ..CheckAnswer::default()
    }
}

/// Where each span starts and ends, then zeros.
fn flat<const N: usize>(spans: &[Span]) -> [usize; N] {
    let mut flat = [0; N];
    for (pair, span) in flat.chunks_exact_mut(2).zip(spans) {
        pair.copy_from_slice(&[span.from, span.to]);
    }
    flat
}

fn ended(result: Result<Outcome, Refusal>, world: &World) -> RunAnswer {
    match result {
        Ok(outcome) => RunAnswer {
            refusal: 0,
            place: outcome.place,
            end: outcome.end.into(),
            events: outcome.events,
            used: outcome.used,
            number: outcome.number as usize,
        },
        Err(refusal) => RunAnswer {
            refusal: refusal.number.into(),
            place: refusal.place,
            number: world.device.number as usize,
            ..RunAnswer::default()
        },
    }
}
