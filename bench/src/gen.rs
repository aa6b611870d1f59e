//! Deterministic inputs for the five jobs: good ones, ones at the limits and
//! damaged ones.

mod case;
mod damage;
mod edge;
pub mod encode;
mod envelope;
mod manifest;
pub mod model;
pub mod pool;
pub mod program;
mod rng;
mod slot;
#[cfg(test)]
mod tests;
mod world;

pub use case::{Case, Generator, Job};
pub use rng::Rng;
pub use slot::Slot;
pub use world::World;
