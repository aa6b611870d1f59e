//! Manifests in CBOR, with one head made wrong where that is asked for.

use super::model::{Argument, Command, Identifier, Manifest, Parameter, Value};

const NUMBER: u8 = 0;
const BYTES: u8 = 2;
const TEXT: u8 = 3;
const ARRAY: u8 = 4;
const MAP: u8 = 5;
const SIMPLE: u8 = 7;
const FALSE: u32 = 20;
const TRUE: u32 = 21;
const NIL: u32 = 22;

/// What is wrong with a head.
#[derive(Clone, Copy, Debug)]
pub enum Quirk {
    /// It takes this many bytes behind the first, or one more than it needs.
    Width(usize),
    /// It has another number.
    Number(u32),
    /// Its number is changed by this much.
    Offset(i32),
    /// It is of another major type.
    Major(u8),
    /// Another byte stands for it.
    Byte(u8),
}

pub fn encode(manifest: &Manifest) -> Vec<u8> {
    let mut encoder = Encoder::default();
    encoder.envelope(manifest);
    encoder.out
}

/// Encodes with a quirk at the head with this number, counted from 0.
pub fn encode_with(manifest: &Manifest, head: usize, quirk: Quirk) -> Vec<u8> {
    let mut encoder = Encoder {
        quirk: Some((head, quirk)),
        ..Encoder::default()
    };
    encoder.envelope(manifest);
    encoder.out
}

/// The number of heads in the encoded envelope.
pub fn heads(manifest: &Manifest) -> usize {
    let mut encoder = Encoder::default();
    encoder.envelope(manifest);
    encoder.heads
}

/// Fills the authentication up to `wanted` bytes of envelope, where it has fewer.
pub fn pad(manifest: &mut Manifest, wanted: usize) {
    manifest.authentication = None;
    let room = wanted.saturating_sub(encode(manifest).len() - 1);
    let head = match room {
        0..=24 => 1,
        25..=257 => 2,
        _ => 3,
    };
    manifest.authentication = Some(vec![0xa5; room.saturating_sub(head)]);
}

pub fn encode_identifier(identifier: &Identifier) -> Vec<u8> {
    let mut encoder = Encoder::default();
    encoder.identifier(identifier);
    encoder.out
}

#[derive(Default)]
struct Encoder {
    out: Vec<u8>,
    heads: usize,
    quirk: Option<(usize, Quirk)>,
}

impl Encoder {
    fn envelope(&mut self, manifest: &Manifest) {
        self.head(MAP, 2);
        self.head(NUMBER, 1);
        match &manifest.authentication {
            Some(bytes) => self.string(BYTES, bytes),
            None => self.head(SIMPLE, NIL),
        }
        self.head(NUMBER, 3);
        self.enclosed(|encoder| encoder.manifest(manifest));
    }

    fn manifest(&mut self, manifest: &Manifest) {
        self.head(MAP, 3 + manifest.sections.len() as u32);
        self.head(NUMBER, 1);
        self.head(NUMBER, manifest.version);
        self.head(NUMBER, 2);
        self.head(NUMBER, manifest.number);
        self.head(NUMBER, 3);
        self.enclosed(|encoder| encoder.common(manifest));
        for (key, sequence) in &manifest.sections {
            self.head(NUMBER, *key);
            self.enclosed(|encoder| encoder.sequence(sequence));
        }
    }

    fn common(&mut self, manifest: &Manifest) {
        self.head(MAP, 1 + u32::from(manifest.common.is_some()));
        self.head(NUMBER, 2);
        self.enclosed(|encoder| encoder.list(&manifest.components));
        if let Some(sequence) = &manifest.common {
            self.head(NUMBER, 4);
            self.enclosed(|encoder| encoder.sequence(sequence));
        }
    }

    fn list(&mut self, components: &[Identifier]) {
        self.head(ARRAY, components.len() as u32);
        for identifier in components {
            self.identifier(identifier);
        }
    }

    fn identifier(&mut self, identifier: &Identifier) {
        self.head(ARRAY, identifier.len() as u32);
        for part in identifier {
            self.string(BYTES, part);
        }
    }

    fn sequence(&mut self, sequence: &[Command]) {
        self.head(ARRAY, 2 * sequence.len() as u32);
        for command in sequence {
            self.head(NUMBER, command.code);
            self.argument(&command.argument);
        }
    }

    fn argument(&mut self, argument: &Argument) {
        match argument {
            Argument::Nil => self.head(SIMPLE, NIL),
            Argument::Bytes(bytes) => self.string(BYTES, bytes),
            Argument::Number(number) => self.head(NUMBER, *number),
            Argument::Raw(bytes) => self.out.extend_from_slice(bytes),
            Argument::Parameters(parameters) => self.parameters(parameters),
            Argument::Sequence(inner) => self.enclosed(|encoder| encoder.sequence(inner)),
            Argument::Alternatives(alternatives) => {
                self.head(ARRAY, alternatives.len() as u32);
                for alternative in alternatives {
                    self.enclosed(|encoder| encoder.sequence(alternative));
                }
            }
        }
    }

    fn parameters(&mut self, parameters: &[Parameter]) {
        self.head(MAP, parameters.len() as u32);
        for parameter in parameters {
            self.head(NUMBER, parameter.key);
            match &parameter.value {
                Value::Boolean(value) => self.head(SIMPLE, if *value { TRUE } else { FALSE }),
                Value::Text(text) => self.string(TEXT, text),
                Value::Number(number) => self.head(NUMBER, *number),
                Value::Bytes(bytes) => self.string(BYTES, bytes),
            }
        }
    }

    fn string(&mut self, major: u8, content: &[u8]) {
        self.head(major, content.len() as u32);
        self.out.extend_from_slice(content);
    }

    /// A byte string around what `content` writes.
    fn enclosed(&mut self, content: impl FnOnce(&mut Self)) {
        let outer = std::mem::take(&mut self.out);
        content(self);
        let inner = std::mem::replace(&mut self.out, outer);
        self.string(BYTES, &inner);
    }

    fn head(&mut self, major: u8, number: u32) {
        let quirk = self.quirk.filter(|(head, _)| *head == self.heads);
        self.heads += 1;
        let width = width(number);
        match quirk.map(|(_, quirk)| quirk) {
            None => self.put(major, number, width),
            Some(Quirk::Width(wide)) => self.put(major, number, wide.max(width + 1)),
            Some(Quirk::Number(other)) => self.put(major, other, self::width(other)),
            Some(Quirk::Offset(offset)) => {
                let other = number.wrapping_add_signed(offset);
                self.put(major, other, self::width(other));
            }
            Some(Quirk::Major(other)) => self.put(other, number, width),
            Some(Quirk::Byte(byte)) => self.out.push(byte),
        }
    }

    /// A head whose number takes at least `width` bytes behind the first.
    fn put(&mut self, major: u8, number: u32, width: usize) {
        let (info, width) = match width {
            0 => (number as u8, 0),
            1 => (24, 1),
            2 => (25, 2),
            3..=4 => (26, 4),
            _ => (27, 8),
        };
        self.out.push(major << 5 | info);
        let bytes = u64::from(number).to_be_bytes();
        self.out.extend_from_slice(&bytes[8 - width..]);
    }
}

/// How many bytes a number needs behind the first byte of its head.
fn width(number: u32) -> usize {
    match number {
        0..=23 => 0,
        24..=0xff => 1,
        0x100..=0xffff => 2,
        _ => 4,
    }
}
