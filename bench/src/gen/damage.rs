use super::Rng;

/// Damages bytes in one or two places.
pub fn damage(rng: &mut Rng, bytes: &mut Vec<u8>) {
    for _ in 0..rng.within(1..=2) {
        damage_once(rng, bytes);
    }
}

fn damage_once(rng: &mut Rng, bytes: &mut Vec<u8>) {
    if bytes.is_empty() {
        bytes.push(rng.byte());
        return;
    }
    let at = rng.below(bytes.len());
    match rng.below(10) {
        0..=2 => bytes[at] ^= 1 << rng.below(8),
        3..=4 => bytes[at] = rng.byte(),
        5 => bytes.truncate(at),
        6 => bytes.insert(at, rng.byte()),
        7 => drop(bytes.remove(at)),
        8 => bytes.push(rng.byte()),
        _ => {
            let other = rng.below(bytes.len());
            bytes.swap(at, other);
        }
    }
}
