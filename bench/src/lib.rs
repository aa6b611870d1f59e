//! A plain reading of the manifest rules, and generated inputs that hold the
//! library against it.
//!
//! - `vectors 01|02 CASES ANSWERS` answers the written cases with the reading.
//! - `cases VECTORS OUT` writes the cases and answers of the program `conformance`.
//! - `compare N SEED` has the library and the reading answer generated inputs.
//! - `time` times both.
//! - `count` counts the instructions of both.
//!
//! The last three need the feature `ours` and the library's `libpitvorgas.a`.

pub mod answer;
pub mod conformance;
pub mod gen;
pub mod hex;
pub mod jobs;
#[cfg(feature = "ours")]
pub mod ours;
pub mod reading;
pub mod subjects;
pub mod tally;
pub mod vectors;
