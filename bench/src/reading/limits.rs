//! The limits of the controller.

pub const ENVELOPE_BYTES: usize = 4096;
pub const COMPONENTS: usize = 8;
pub const IDENTIFIER_PARTS: u32 = 4;
pub const IDENTIFIER_BYTES: usize = 32;
pub const SEQUENCE_ITEMS: u32 = 128;
pub const DEPTH: usize = 4;
/// What the commands of an envelope may weigh together, and how many a program may have.
pub const COMMANDS: usize = 256;
pub const ALTERNATIVES: u32 = 4;
pub const PARAMETERS: u32 = 5;
pub const URI_BYTES: usize = 96;
pub const SLOTS: usize = 8;
pub const TRACE_BYTES: usize = 2048;
pub const RECORDS: usize = 1024;
pub const PROGRAM_BYTES: usize = 49_152;
