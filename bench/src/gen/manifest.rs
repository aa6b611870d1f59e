use super::model::{self, Command, Identifier, Manifest, Parameter, Sequence};
use super::{edge, encode, pool, Rng};
use crate::reading::limits;

/// In so many of 100 cases a manifest has as many commands as it may.
const FULL: usize = 4;

/// A manifest that check accepts.
pub fn manifest(rng: &mut Rng) -> Manifest {
    loop {
        let mut manifest = draft(rng);
        if rng.percent(FULL) {
            edge::fill_up(rng, &mut manifest);
        }
        let light = manifest.weight() <= limits::COMMANDS;
        if light && encode::encode(&manifest).len() <= limits::ENVELOPE_BYTES {
            return manifest;
        }
    }
}

fn draft(rng: &mut Rng) -> Manifest {
    let components = match rng.below(10) {
        0..=3 => 1,
        4..=6 => 2,
        7..=8 => 3,
        _ => rng.within(4..=8),
    };
    let authentication = rng.percent(30).then(|| {
        let length = rng.below(40);
        rng.bytes(length)
    });
    let number = pool::number(rng);
    let identifiers = (0..components).map(|k| identifier(rng, k)).collect();
    let left = rng.pick(&[4, 10, 20, 40, 80, 150]);
    let mut author = Author {
        rng,
        components,
        left,
    };
    Manifest {
        authentication,
        version: 1,
        number,
        components: identifiers,
        common: author.common(),
        sections: author.sections(),
    }
}

/// An identifier that differs from those with another `mark`.
pub fn identifier(rng: &mut Rng, mark: usize) -> Identifier {
    let length = if rng.percent(10) { 27 } else { rng.below(4) };
    let mut first = vec![mark as u8];
    first.extend(rng.bytes(length));
    let mut parts = vec![first];
    if length < 4 {
        for _ in 0..rng.below(4) {
            let length = rng.below(6);
            parts.push(rng.bytes(length));
        }
    }
    parts
}

/// Writes commands for a number of components while some are left to write.
struct Author<'a> {
    rng: &'a mut Rng,
    components: usize,
    left: usize,
}

impl Author<'_> {
    fn common(&mut self) -> Option<Sequence> {
        if self.rng.percent(10) {
            return None;
        }
        let mut sequence = Sequence::new();
        if self.rng.percent(80) {
            for component in 0..self.components {
                sequence.push(Command::index(component));
                sequence.push(self.first_parameters());
            }
        }
        sequence.extend(self.sequence(0, 1));
        Some(sequence)
    }

    fn first_parameters(&mut self) -> Command {
        let mut parameters = vec![
            Parameter::uri(pool::uri(self.rng)),
            Parameter::source(self.rng.below(self.components)),
            Parameter::digest(pool::digest(self.rng)),
        ];
        if self.rng.percent(30) {
            parameters.push(Parameter::size(pool::size(self.rng)));
        }
        if self.rng.percent(10) {
            parameters.remove(self.rng.below(3));
        }
        Command::override_with(parameters)
    }

    fn sections(&mut self) -> Vec<(u32, Sequence)> {
        let mut sections = Vec::new();
        for key in model::PAYLOAD_FETCH_SECTION..=model::RUN_SECTION {
            if self.rng.percent(60) {
                let mut sequence = self.sequence(key, 1);
                if key == model::RUN_SECTION && self.rng.percent(60) {
                    sequence.push(Command::nil(model::RUN));
                }
                sections.push((key, sequence));
            }
        }
        sections
    }

    fn sequence(&mut self, section: u32, depth: usize) -> Sequence {
        let length = self.rng.below(if depth == 1 { 10 } else { 5 });
        let mut sequence = Sequence::new();
        while sequence.len() < length && self.left > 0 {
            self.left -= 1;
            sequence.push(self.command(section, depth));
        }
        sequence
    }

    fn command(&mut self, section: u32, depth: usize) -> Command {
        let conditions = if depth == 1 { 10 } else { 35 };
        if self.rng.percent(conditions) {
            return self.condition();
        }
        match self.rng.below(60) {
            0..=9 => Command::index(self.rng.below(self.components)),
            10..=14 => Command::set(self.parameters()),
            15..=21 => Command::override_with(self.parameters()),
            22 if self.rng.percent(50) => Command::nil(model::ABORT),
            22..=45 => self.directive(section),
            _ if depth == limits::DEPTH => self.condition(),
            46..=51 => self.try_each(section, depth),
            _ => self.run_sequence(section, depth),
        }
    }

    fn condition(&mut self) -> Command {
        match self.rng.below(4) {
            0 => Command::identity(model::VENDOR, pool::identity(self.rng, pool::VENDOR, 20)),
            1 => Command::identity(model::CLASS, pool::identity(self.rng, pool::CLASS, 20)),
            _ => Command::nil(model::IMAGE_MATCH),
        }
    }

    fn directive(&mut self, section: u32) -> Command {
        let fetching = [model::FETCH, model::FETCH, model::COPY, model::SWAP];
        let code = match section {
            model::PAYLOAD_FETCH_SECTION | model::INSTALL_SECTION => self.rng.pick(&fetching),
            model::LOAD_SECTION => self.rng.pick(&[model::COPY, model::SWAP]),
            model::RUN_SECTION if self.rng.percent(15) => model::RUN,
            _ => return Command::index(self.rng.below(self.components)),
        };
        Command::nil(code)
    }

    fn try_each(&mut self, section: u32, depth: usize) -> Command {
        let count = self.rng.within(1..=4);
        let alternatives = (0..count).map(|_| self.sequence(section, depth + 1));
        Command::try_each(alternatives.collect())
    }

    fn run_sequence(&mut self, section: u32, depth: usize) -> Command {
        let mut sequence = Sequence::new();
        if self.rng.percent(50) {
            sequence.push(Command::set(vec![Parameter::coerce(true)]));
        }
        sequence.extend(self.sequence(section, depth + 1));
        if self.rng.percent(15) {
            let coerce = Parameter::coerce(self.rng.percent(30));
            sequence.push(Command::set(vec![coerce]));
            sequence.push(self.condition());
        }
        Command::sequence(sequence)
    }

    /// One to five parameters in the order of their keys.
    fn parameters(&mut self) -> Vec<Parameter> {
        loop {
            let all = [
                Parameter::coerce(self.rng.percent(70)),
                Parameter::uri(pool::uri(self.rng)),
                Parameter::source(self.rng.below(self.components)),
                Parameter::digest(pool::digest(self.rng)),
                Parameter::size(pool::size(self.rng)),
            ];
            let some = all.into_iter().filter(|_| self.rng.percent(45));
            let parameters: Vec<Parameter> = some.collect();
            if !parameters.is_empty() {
                return parameters;
            }
        }
    }
}
