//! Manifests as they are written, good or not.

pub type Identifier = Vec<Vec<u8>>;
pub type Sequence = Vec<Command>;

#[derive(Clone, Debug)]
pub struct Manifest {
    pub authentication: Option<Vec<u8>>,
    pub version: u32,
    pub number: u32,
    pub components: Vec<Identifier>,
    pub common: Option<Sequence>,
    pub sections: Vec<(u32, Sequence)>,
}

#[derive(Clone, Debug)]
pub struct Command {
    pub code: u32,
    pub argument: Argument,
}

#[derive(Clone, Debug)]
pub enum Argument {
    Nil,
    Bytes(Vec<u8>),
    Number(u32),
    Parameters(Vec<Parameter>),
    Sequence(Sequence),
    Alternatives(Vec<Sequence>),
    /// Bytes as they are to stand there.
    Raw(Vec<u8>),
}

#[derive(Clone, Debug)]
pub struct Parameter {
    pub key: u32,
    pub value: Value,
}

#[derive(Clone, Debug)]
pub enum Value {
    Boolean(bool),
    Text(Vec<u8>),
    Number(u32),
    Bytes(Vec<u8>),
}

pub const VENDOR: u32 = 1;
pub const CLASS: u32 = 2;
pub const IMAGE_MATCH: u32 = 3;
pub const SET_COMPONENT_INDEX: u32 = 12;
pub const ABORT: u32 = 14;
pub const TRY_EACH: u32 = 15;
pub const SET_PARAMETERS: u32 = 19;
pub const OVERRIDE_PARAMETERS: u32 = 20;
pub const FETCH: u32 = 21;
pub const COPY: u32 = 22;
pub const RUN: u32 = 23;
pub const RUN_SEQUENCE: u32 = 30;
pub const SWAP: u32 = 32;

pub const COERCE: u32 = 2;
pub const URI: u32 = 6;
pub const SOURCE: u32 = 10;
pub const DIGEST: u32 = 11;
pub const SIZE: u32 = 12;

pub const PAYLOAD_FETCH_SECTION: u32 = 8;
pub const INSTALL_SECTION: u32 = 9;
pub const VALIDATE_SECTION: u32 = 10;
pub const LOAD_SECTION: u32 = 11;
pub const RUN_SECTION: u32 = 12;

impl Manifest {
    /// What each command of common weighs, nested ones too: as many as there
    /// are sections, at least 1.
    pub fn common_weight(&self) -> usize {
        self.sections.len().max(1)
    }

    /// What all commands of common weigh.
    pub fn weight_in_common(&self) -> usize {
        self.common_weight() * self.common.as_ref().map_or(0, count)
    }

    /// What all commands weigh; those of sections weigh 1 each.
    pub fn weight(&self) -> usize {
        let sections = self.sections.iter().map(|(_, sequence)| count(sequence));
        self.weight_in_common() + sections.sum::<usize>()
    }
}

/// The commands of a sequence, nested ones included.
fn count(sequence: &Sequence) -> usize {
    let nested = sequence.iter().flat_map(Command::nested);
    sequence.len() + nested.map(count).sum::<usize>()
}

impl Command {
    pub fn nil(code: u32) -> Self {
        let argument = Argument::Nil;
        Command { code, argument }
    }

    pub fn identity(code: u32, identity: [u8; 16]) -> Self {
        let argument = Argument::Bytes(identity.to_vec());
        Command { code, argument }
    }

    pub fn index(index: usize) -> Self {
        Command {
            code: SET_COMPONENT_INDEX,
            argument: Argument::Number(index as u32),
        }
    }

    pub fn set(parameters: Vec<Parameter>) -> Self {
        Command {
            code: SET_PARAMETERS,
            argument: Argument::Parameters(parameters),
        }
    }

    pub fn override_with(parameters: Vec<Parameter>) -> Self {
        Command {
            code: OVERRIDE_PARAMETERS,
            argument: Argument::Parameters(parameters),
        }
    }

    pub fn sequence(sequence: Sequence) -> Self {
        Command {
            code: RUN_SEQUENCE,
            argument: Argument::Sequence(sequence),
        }
    }

    pub fn try_each(alternatives: Vec<Sequence>) -> Self {
        Command {
            code: TRY_EACH,
            argument: Argument::Alternatives(alternatives),
        }
    }

    pub fn nested(&self) -> &[Sequence] {
        match &self.argument {
            Argument::Sequence(inner) => std::slice::from_ref(inner),
            Argument::Alternatives(alternatives) => alternatives,
            _ => &[],
        }
    }

    pub fn nested_mut(&mut self) -> &mut [Sequence] {
        match &mut self.argument {
            Argument::Sequence(inner) => std::slice::from_mut(inner),
            Argument::Alternatives(alternatives) => alternatives,
            _ => &mut [],
        }
    }
}

impl Parameter {
    pub fn coerce(coerce: bool) -> Self {
        let value = Value::Boolean(coerce);
        Parameter { key: COERCE, value }
    }

    pub fn uri(uri: Vec<u8>) -> Self {
        let value = Value::Text(uri);
        Parameter { key: URI, value }
    }

    pub fn source(source: usize) -> Self {
        let value = Value::Number(source as u32);
        Parameter { key: SOURCE, value }
    }

    pub fn digest(digest: [u8; 32]) -> Self {
        let value = Value::Bytes(digest.to_vec());
        Parameter { key: DIGEST, value }
    }

    pub fn size(size: u32) -> Self {
        let value = Value::Number(size);
        Parameter { key: SIZE, value }
    }
}
