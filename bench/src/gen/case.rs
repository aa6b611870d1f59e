use super::envelope::{envelope, renumbered};
use super::program::program;
use super::world::{world, World};
use super::Rng;
use crate::reading::{translate, Group};

#[derive(Clone, Copy, Debug, PartialEq, Eq)]
pub enum Job {
    Check,
    Newer,
    Translate,
    Run,
    RunProgram,
}

impl Job {
    pub const ALL: [Job; 5] = [
        Job::Check,
        Job::Newer,
        Job::Translate,
        Job::Run,
        Job::RunProgram,
    ];
}

/// One input for one of the five jobs.
#[derive(Clone, Debug)]
pub enum Case {
    Check {
        envelope: Vec<u8>,
    },
    Newer {
        first: Vec<u8>,
        second: Vec<u8>,
    },
    Translate {
        envelope: Vec<u8>,
        group: Group,
        room: Vec<u8>,
    },
    Run {
        envelope: Vec<u8>,
        group: Group,
        world: World,
    },
    RunProgram {
        program: Vec<u8>,
        world: World,
    },
}

impl Case {
    /// Fills a room whose bytes a case does not tell.
    pub const ROOM_FILL: u8 = 0xa5;

    pub fn job(&self) -> Job {
        match self {
            Case::Check { .. } => Job::Check,
            Case::Newer { .. } => Job::Newer,
            Case::Translate { .. } => Job::Translate,
            Case::Run { .. } => Job::Run,
            Case::RunProgram { .. } => Job::RunProgram,
        }
    }
}

/// An endless stream of cases, the same for the same seed.
pub struct Generator {
    rng: Rng,
}

impl Generator {
    pub fn new(seed: u64) -> Self {
        let rng = Rng::new(seed);
        Generator { rng }
    }

    fn check(&mut self) -> Case {
        let envelope = envelope(&mut self.rng, 25).bytes;
        Case::Check { envelope }
    }

    fn newer(&mut self) -> Case {
        let (first, second) = if self.rng.percent(40) {
            renumbered(&mut self.rng)
        } else {
            (envelope(&mut self.rng, 60), envelope(&mut self.rng, 60))
        };
        Case::Newer {
            first: first.bytes,
            second: second.bytes,
        }
    }

    fn translate(&mut self) -> Case {
        let envelope = envelope(&mut self.rng, 70).bytes;
        let group = self.rng.pick(&Group::BOTH);
        let length = translate(&envelope, group, usize::MAX).map_or(100, |program| program.len());
        let room = match self.rng.below(20) {
            0..=5 => length,
            6 => length - 1,
            7..=9 => length + 1,
            10 => 0,
            11 => self.rng.below(length),
            _ => length + self.rng.below(2000),
        };
        let room = self.rng.bytes(room);
        Case::Translate {
            envelope,
            group,
            room,
        }
    }

    fn run(&mut self) -> Case {
        let envelope = envelope(&mut self.rng, 75);
        let group = self.rng.pick(&Group::BOTH);
        let world = world(&mut self.rng, group, envelope.number, &envelope.identifiers);
        Case::Run {
            envelope: envelope.bytes,
            group,
            world,
        }
    }

    fn run_program(&mut self) -> Case {
        let program = program(&mut self.rng);
        let world = world(
            &mut self.rng,
            program.group,
            program.number,
            &program.identifiers,
        );
        Case::RunProgram {
            program: program.bytes,
            world,
        }
    }
}

impl Iterator for Generator {
    type Item = Case;

    fn next(&mut self) -> Option<Case> {
        Some(match self.rng.below(100) {
            0..=24 => self.check(),
            25..=31 => self.newer(),
            32..=44 => self.translate(),
            45..=74 => self.run(),
            _ => self.run_program(),
        })
    }
}
