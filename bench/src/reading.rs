//! A plain interpreter of the manifest rules, over lent byte buffers.

mod cbor;
mod check;
mod command;
mod components;
pub mod limits;
mod machine;
mod newer;
mod parameters;
mod program;
mod refusal;
mod run;
mod slots;
mod table;
#[cfg(test)]
mod tests;
mod translate;

pub use cbor::{head_at, Head};
pub use check::{check, Manifest};
pub use components::Components;
pub use newer::newer;
pub use program::test_program;
pub use refusal::Refusal;
pub use run::{run, run_program};
pub use slots::SLOT_BYTES;
pub use translate::translate;

/// The bytes `from..to` of a lent buffer.
#[derive(Clone, Copy, Debug, Default, PartialEq, Eq)]
pub struct Span {
    pub from: usize,
    pub to: usize,
}

/// Where a sequence stands in the manifest.
#[derive(Clone, Copy, Debug, PartialEq, Eq, PartialOrd)]
pub enum Section {
    Common,
    PayloadFetch,
    Install,
    Validate,
    Load,
    Run,
}

impl Section {
    pub const ALL: [Section; 6] = [
        Section::Common,
        Section::PayloadFetch,
        Section::Install,
        Section::Validate,
        Section::Load,
        Section::Run,
    ];

    fn from_key(key: u32) -> Option<Section> {
        match key {
            8 => Some(Section::PayloadFetch),
            9 => Some(Section::Install),
            10 => Some(Section::Validate),
            11 => Some(Section::Load),
            12 => Some(Section::Run),
            _ => None,
        }
    }
}

#[derive(Clone, Copy, Debug, PartialEq, Eq)]
pub enum Group {
    Install,
    Boot,
}

impl Group {
    pub const BOTH: [Group; 2] = [Group::Install, Group::Boot];

    /// The sections of the group, in the order in which they run.
    fn sections(self) -> &'static [Section] {
        match self {
            Group::Install => &[Section::PayloadFetch, Section::Install],
            Group::Boot => &[Section::Validate, Section::Load, Section::Run],
        }
    }
}

#[derive(Clone, Debug, PartialEq, Eq)]
pub struct Device {
    pub vendor: [u8; 16],
    pub class: [u8; 16],
    pub number: u32,
    pub event_open: bool,
}

/// How a run ended: `end` is 0 finished, 1 condition failed, 2 started, or a
/// failure number, and `number` is the device's after the run.
#[derive(Clone, Copy, Debug, PartialEq, Eq)]
pub struct Outcome {
    pub end: u8,
    pub place: usize,
    pub events: usize,
    pub used: usize,
    pub number: u32,
}
