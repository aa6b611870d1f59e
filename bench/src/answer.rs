//! Answers to cases, in the form of the library's C interface.

use crate::gen::{Case, World};
use crate::reading::Group;

#[repr(C)]
#[derive(Clone, Copy, Debug, Default, PartialEq, Eq)]
pub struct CheckAnswer {
    pub refusal: usize,
    pub place: usize,
    pub number: usize,
    pub components: usize,
    pub ids: [usize; 16],
    pub sections: [usize; 12],
    pub from: usize,
    pub to: usize,
}

#[repr(C)]
#[derive(Clone, Copy, Debug, Default, PartialEq, Eq)]
pub struct NewerAnswer {
    pub second: usize,
    pub from: usize,
    pub to: usize,
}

#[repr(C)]
#[derive(Clone, Copy, Debug, Default, PartialEq, Eq)]
pub struct TranslateAnswer {
    pub refusal: usize,
    pub place: usize,
    pub length: usize,
}

#[repr(C)]
#[derive(Clone, Copy, Debug, Default, PartialEq, Eq)]
pub struct RunAnswer {
    pub refusal: usize,
    pub place: usize,
    pub end: usize,
    pub events: usize,
    pub used: usize,
    pub number: usize,
}

/// What of a world a run may alter.
pub struct Lent {
    pub slots: Vec<u8>,
    pub trace: Vec<u8>,
}

impl From<&World> for Lent {
    fn from(world: &World) -> Self {
        Lent {
            slots: world.slots.clone(),
            trace: world.trace.clone(),
        }
    }
}

/// The five jobs, and the program test.
pub trait Jobs {
    fn check(&self, envelope: &[u8]) -> CheckAnswer;
    fn newer(&self, first: &[u8], second: &[u8]) -> NewerAnswer;
    fn translate(&self, envelope: &[u8], group: Group, room: &mut [u8]) -> TranslateAnswer;
    fn test_program(&self, program: &[u8]) -> bool;
    fn run(&self, envelope: &[u8], group: Group, world: &World, lent: &mut Lent) -> RunAnswer;
    fn run_program(&self, program: &[u8], world: &World, lent: &mut Lent) -> RunAnswer;
}

/// An answer with every lent byte as it is afterwards.
#[derive(Clone, Debug, PartialEq, Eq)]
pub enum Answer {
    Check(CheckAnswer),
    Newer(NewerAnswer),
    Translate {
        /// What the test says of the program; where there is none, nothing.
        tested: Option<bool>,
        answer: TranslateAnswer,
        room: Vec<u8>,
    },
    Run {
        /// What the test says of a program; of an envelope, nothing.
        tested: Option<bool>,
        answer: RunAnswer,
        slots: Vec<u8>,
        trace: Vec<u8>,
    },
}

impl Answer {
    /// The lent bytes that a job may write, by name.
    pub fn lent(&self) -> Vec<(&'static str, &[u8])> {
        match self {
            Answer::Check(_) | Answer::Newer(_) => Vec::new(),
            Answer::Translate { room, .. } => vec![("room", room)],
            Answer::Run { slots, trace, .. } => vec![("slots", slots), ("trace", trace)],
        }
    }
}

/// Has a case answered.
pub fn answer(jobs: &impl Jobs, case: &Case) -> Answer {
    match case {
        Case::Check { envelope } => Answer::Check(jobs.check(envelope)),
        Case::Newer { first, second } => Answer::Newer(jobs.newer(first, second)),
        Case::Translate {
            envelope,
            group,
            room,
        } => {
            let mut room = room.clone();
            let answer = jobs.translate(envelope, *group, &mut room);
            let program = room.get(..answer.length).filter(|_| answer.refusal == 0);
            let tested = program.map(|program| jobs.test_program(program));
            Answer::Translate {
                tested,
                answer,
                room,
            }
        }
        Case::Run {
            envelope,
            group,
            world,
        } => lend(world, None, |lent| jobs.run(envelope, *group, world, lent)),
        Case::RunProgram { program, world } => {
            let tested = Some(jobs.test_program(program));
            lend(world, tested, |lent| jobs.run_program(program, world, lent))
        }
    }
}

fn lend(world: &World, tested: Option<bool>, run: impl FnOnce(&mut Lent) -> RunAnswer) -> Answer {
    let mut lent = Lent::from(world);
    let answer = run(&mut lent);
    Answer::Run {
        tested,
        answer,
        slots: lent.slots,
        trace: lent.trace,
    }
}
