//! Small sets of values, so that inputs drawn apart often meet.

use super::Rng;

pub const VENDOR: [u8; 16] = [1; 16];
pub const CLASS: [u8; 16] = [2; 16];
pub const SIZE: u32 = 100;
pub const DIGEST: [u8; 32] = [0x11; 32];

/// The wanted identity, or in `other` of 100 cases one that differs in a bit.
pub fn identity(rng: &mut Rng, wanted: [u8; 16], other: usize) -> [u8; 16] {
    let mut identity = wanted;
    if rng.percent(other) {
        identity[rng.below(16)] ^= 1 << rng.below(8);
    }
    identity
}

pub fn digest(rng: &mut Rng) -> [u8; 32] {
    let mut digest = DIGEST;
    match rng.below(10) {
        0 => digest = [0; 32],
        1 => digest = [0xff; 32],
        2 => digest[31] = 0x12,
        3 => digest[0] = 0x12,
        _ => {}
    }
    digest
}

pub fn size(rng: &mut Rng) -> u32 {
    if rng.percent(65) {
        return SIZE;
    }
    rng.pick(&[0, 1, 99, 101, 200, 256, 34_768, 65_536, u32::MAX])
}

pub fn capacity(rng: &mut Rng) -> u32 {
    if rng.percent(60) {
        return 200;
    }
    rng.pick(&[0, 1, 99, 100, 101, 40_000, u32::MAX])
}

pub fn number(rng: &mut Rng) -> u32 {
    if rng.percent(70) {
        return rng.within(1..=3) as u32;
    }
    rng.pick(&[0, 23, 24, 255, 256, 65_535, 65_536, u32::MAX - 1, u32::MAX])
}

pub fn uri(rng: &mut Rng) -> Vec<u8> {
    let length = match rng.below(20) {
        0 => 1,
        1 => 96,
        2 => 23,
        3 => 24,
        _ => rng.within(1..=12),
    };
    rng.bytes(length)
}
