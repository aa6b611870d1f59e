use super::Section;

#[derive(Clone, Copy, Debug, PartialEq, Eq)]
#[repr(u8)]
pub enum Code {
    Vendor = 1,
    Class = 2,
    ImageMatch = 3,
    SetComponentIndex = 12,
    Abort = 14,
    TryEach = 15,
    SetParameters = 19,
    OverrideParameters = 20,
    Fetch = 21,
    Copy = 22,
    Run = 23,
    RunSequence = 30,
    Swap = 32,
}

impl Code {
    pub fn is_condition(self) -> bool {
        matches!(self, Code::Vendor | Code::Class | Code::ImageMatch)
    }
}

/// What stands behind a code.
#[derive(Clone, Copy, Debug, PartialEq, Eq)]
pub enum Shape {
    Nil,
    Identity,
    Index,
    Parameters,
    Sequence,
    Alternatives,
}

pub struct Entry {
    pub code: Code,
    pub argument: Shape,
    allowed: &'static [Section],
}

impl Entry {
    pub fn allowed_in(&self, section: Section) -> bool {
        self.allowed.contains(&section)
    }
}

const fn entry(code: Code, argument: Shape, allowed: &'static [Section]) -> Entry {
    Entry {
        code,
        argument,
        allowed,
    }
}

const FETCHING: &[Section] = &[Section::PayloadFetch, Section::Install];
const MOVING: &[Section] = &[Section::PayloadFetch, Section::Install, Section::Load];
const STARTING: &[Section] = &[Section::Run];

const COMMANDS: [Entry; 13] = [
    entry(Code::Vendor, Shape::Identity, &Section::ALL),
    entry(Code::Class, Shape::Identity, &Section::ALL),
    entry(Code::ImageMatch, Shape::Nil, &Section::ALL),
    entry(Code::SetComponentIndex, Shape::Index, &Section::ALL),
    entry(Code::Abort, Shape::Nil, &Section::ALL),
    entry(Code::TryEach, Shape::Alternatives, &Section::ALL),
    entry(Code::SetParameters, Shape::Parameters, &Section::ALL),
    entry(Code::OverrideParameters, Shape::Parameters, &Section::ALL),
    entry(Code::Fetch, Shape::Nil, FETCHING),
    entry(Code::Copy, Shape::Nil, MOVING),
    entry(Code::Run, Shape::Nil, STARTING),
    entry(Code::RunSequence, Shape::Sequence, &Section::ALL),
    entry(Code::Swap, Shape::Nil, MOVING),
];

pub fn lookup(code: u32) -> Option<&'static Entry> {
    COMMANDS.iter().find(|entry| entry.code as u32 == code)
}
