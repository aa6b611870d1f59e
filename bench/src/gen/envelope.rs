use super::damage::damage;
use super::encode::{self, Quirk};
use super::manifest::manifest;
use super::model::Manifest;
use super::{edge, Rng};

/// An envelope, and what its manifest holds where it is a good one.
#[derive(Clone, Debug)]
pub struct Envelope {
    pub bytes: Vec<u8>,
    pub number: u32,
    pub identifiers: Vec<Vec<u8>>,
}

/// An envelope that is a good one in `good` of 100 cases.
pub fn envelope(rng: &mut Rng, good: usize) -> Envelope {
    let mut manifest = manifest(rng);
    if rng.percent(good) {
        return pack(&manifest, encode::encode(&manifest));
    }
    let bytes = match rng.below(20) {
        0..=3 => {
            edge::to_limit(rng, &mut manifest);
            encode::encode(&manifest)
        }
        4..=5 => {
            edge::to_weight(rng, &mut manifest);
            encode::encode(&manifest)
        }
        6..=9 => {
            edge::to_fault(rng, &mut manifest);
            encode::encode(&manifest)
        }
        10..=13 => with_quirk(rng, &manifest),
        14..=15 => {
            edge::to_fault(rng, &mut manifest);
            let to_edge = rng.pick(&[edge::to_limit, edge::to_weight]);
            to_edge(rng, &mut manifest);
            with_quirk(rng, &manifest)
        }
        16..=18 => {
            let mut bytes = encode::encode(&manifest);
            damage(rng, &mut bytes);
            bytes
        }
        _ => noise(rng),
    };
    pack(&manifest, bytes)
}

/// The same manifest with another number.
pub fn renumbered(rng: &mut Rng) -> (Envelope, Envelope) {
    let first = manifest(rng);
    let mut second = first.clone();
    second.number = match rng.below(4) {
        0 => first.number,
        1 => first.number.wrapping_add(1),
        2 => first.number.wrapping_sub(1),
        _ => rng.draw() as u32,
    };
    let pack = |manifest: &Manifest| pack(manifest, encode::encode(manifest));
    (pack(&first), pack(&second))
}

fn pack(manifest: &Manifest, bytes: Vec<u8>) -> Envelope {
    let identifiers = manifest.components.iter();
    Envelope {
        bytes,
        number: manifest.number,
        identifiers: identifiers.map(encode::encode_identifier).collect(),
    }
}

fn with_quirk(rng: &mut Rng, manifest: &Manifest) -> Vec<u8> {
    let head = rng.below(encode::heads(manifest));
    let quirk = match rng.below(10) {
        0..=1 => Quirk::Width(rng.pick(&[1, 2, 4, 8])),
        2..=4 => Quirk::Offset(rng.pick(&[-2, -1, 1, 2, 24, 256])),
        5 => Quirk::Number(rng.draw() as u32 >> rng.below(32)),
        6..=7 => Quirk::Major(rng.below(8) as u8),
        8 => Quirk::Byte(rng.pick(&[0x1c, 0x3f, 0x5f, 0x9f, 0xbf, 0xf7, 0xf8, 0xfb, 0xff])),
        _ => Quirk::Byte(rng.byte()),
    };
    encode::encode_with(manifest, head, quirk)
}

/// Random bytes, some of which start like an envelope.
fn noise(rng: &mut Rng) -> Vec<u8> {
    let start: &[u8] = rng.pick(&[
        b"",
        b"\xa2",
        b"\xa2\x01\xf6\x03",
        b"\xa2\x01\xf6\x03\x58\x20\xa4\x01\x01\x02",
    ]);
    let length = rng.below(60);
    let mut bytes = start.to_vec();
    bytes.extend(rng.bytes(length));
    bytes
}
