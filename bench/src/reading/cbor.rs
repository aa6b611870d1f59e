use std::ops::RangeInclusive;

use super::refusal::{Fault, Refusal};
use super::Span;

#[derive(Clone, Copy, Debug, PartialEq, Eq)]
pub enum Kind {
    Number,
    Bytes,
    Text,
    Array,
    Map,
    False,
    True,
    Nil,
}

impl Kind {
    /// The major type; of false, true and nil, the simple value.
    fn code(self) -> usize {
        match self {
            Kind::Number => 0,
            Kind::Bytes => 2,
            Kind::Text => 3,
            Kind::Array => 4,
            Kind::Map => 5,
            Kind::False => 20,
            Kind::True => 21,
            Kind::Nil => 22,
        }
    }
}

/// The head of an item: its number is a value, a length or a count.
#[derive(Clone, Copy, Debug)]
pub struct Item {
    pub kind: Kind,
    pub number: u32,
    pub place: usize,
}

impl Item {
    pub fn expect(self, holds: bool) -> Result<Item, Refusal> {
        Fault::WrongItem.unless(holds, self.place)?;
        Ok(self)
    }
}

/// Reads items from one container: the envelope, or a byte string inside it.
#[derive(Clone, Debug)]
pub struct Reader<'a> {
    envelope: &'a [u8],
    position: usize,
    end: usize,
}

impl<'a> Reader<'a> {
    pub fn new(envelope: &'a [u8]) -> Self {
        let whole = Span {
            from: 0,
            to: envelope.len(),
        };
        Reader::within(envelope, whole)
    }

    pub fn within(envelope: &'a [u8], container: Span) -> Self {
        Reader {
            envelope,
            position: container.from,
            end: container.to,
        }
    }

    pub fn position(&self) -> usize {
        self.position
    }

    /// What is still unread of the container.
    pub fn rest(&self) -> Span {
        Span {
            from: self.position,
            to: self.end,
        }
    }

    /// Reads a head; the content of a string must fit the container.
    pub fn item(&mut self) -> Result<Item, Refusal> {
        let place = self.position;
        let rest = &self.envelope[place..self.end];
        let (kind, number, size) = head(rest).ok_or(Fault::NotCbor.at(place))?;
        if matches!(kind, Kind::Bytes | Kind::Text) {
            let fits = number as usize <= rest.len() - size;
            Fault::NotCbor.unless(fits, place)?;
        }
        self.position += size;
        Ok(Item {
            kind,
            number,
            place,
        })
    }

    pub fn expect(&mut self, kind: Kind) -> Result<Item, Refusal> {
        let item = self.item()?;
        item.expect(item.kind == kind)
    }

    pub fn number(&mut self) -> Result<Item, Refusal> {
        self.expect(Kind::Number)
    }

    pub fn nil(&mut self) -> Result<(), Refusal> {
        self.expect(Kind::Nil).map(drop)
    }

    pub fn boolean(&mut self) -> Result<bool, Refusal> {
        let item = self.item()?;
        item.expect(matches!(item.kind, Kind::False | Kind::True))?;
        Ok(item.kind == Kind::True)
    }

    pub fn key(&mut self, wanted: u32) -> Result<(), Refusal> {
        let key = self.number()?;
        key.expect(key.number == wanted).map(drop)
    }

    /// A component index.
    pub fn index(&mut self, components: usize) -> Result<usize, Refusal> {
        let index = self.number()?;
        let value = index.number as usize;
        Fault::IndexTooHigh.unless(value < components, index.place)?;
        Ok(value)
    }

    pub fn array(&mut self, counts: RangeInclusive<u32>) -> Result<u32, Refusal> {
        self.counted(Kind::Array, counts)
    }

    pub fn map(&mut self, counts: RangeInclusive<u32>) -> Result<u32, Refusal> {
        self.counted(Kind::Map, counts)
    }

    fn counted(&mut self, kind: Kind, counts: RangeInclusive<u32>) -> Result<u32, Refusal> {
        let head = self.expect(kind)?;
        head.expect(counts.contains(&head.number))?;
        Ok(head.number)
    }

    /// A byte or text string whose length is in `lengths`.
    pub fn string(
        &mut self,
        kind: Kind,
        lengths: RangeInclusive<usize>,
    ) -> Result<&'a [u8], Refusal> {
        let head = self.expect(kind)?;
        head.expect(lengths.contains(&(head.number as usize)))?;
        Ok(self.content(head))
    }

    /// The content of the string whose head has just been read.
    pub fn content(&mut self, head: Item) -> &'a [u8] {
        let from = self.position;
        self.position += head.number as usize;
        &self.envelope[from..self.position]
    }

    /// A reader for the items inside a byte string.
    pub fn enclosed(&mut self) -> Result<Reader<'a>, Refusal> {
        let head = self.expect(Kind::Bytes)?;
        let from = self.position;
        self.position += head.number as usize;
        let container = Span {
            from,
            to: self.position,
        };
        Ok(Reader::within(self.envelope, container))
    }

    /// Refuses what is left over.
    pub fn finish(&self) -> Result<(), Refusal> {
        Fault::NotCbor.unless(self.position == self.end, self.position)
    }
}

/// A head by itself: false, true and nil have the number 0.
#[derive(Clone, Copy, Debug, PartialEq, Eq)]
pub struct Head {
    pub kind: usize,
    pub number: u32,
    pub next: usize,
}

/// The head at a place of an envelope. Content need not fit, and past the end
/// there is no head.
pub fn head_at(envelope: &[u8], place: usize) -> Result<Head, Refusal> {
    let rest = envelope.get(place..).unwrap_or_default();
    let (kind, number, size) = head(rest).ok_or(Fault::NotCbor.at(place))?;
    let simple = matches!(kind, Kind::False | Kind::True | Kind::Nil);
    Ok(Head {
        kind: kind.code(),
        number: if simple { 0 } else { number },
        next: place + size,
    })
}

/// The kind, number and size of a well-formed head.
fn head(bytes: &[u8]) -> Option<(Kind, u32, usize)> {
    let (&first, rest) = bytes.split_first()?;
    let (number, size) = match first & 0x1f {
        small @ 0..=23 => (u32::from(small), 1),
        24 => (u32::from(*rest.first()?), 2),
        25 => (u32::from(u16::from_be_bytes(*rest.first_chunk()?)), 3),
        26 => (u32::from_be_bytes(*rest.first_chunk()?), 5),
        _ => return None,
    };
    if size != shortest(number) {
        return None;
    }
    let kind = match (first >> 5, number) {
        (0, _) => Kind::Number,
        (2, _) => Kind::Bytes,
        (3, _) => Kind::Text,
        (4, _) => Kind::Array,
        (5, _) => Kind::Map,
        (7, 20) => Kind::False,
        (7, 21) => Kind::True,
        (7, 22) => Kind::Nil,
        _ => return None,
    };
    Some((kind, number, size))
}

/// The size of the shortest head that holds `number`.
fn shortest(number: u32) -> usize {
    match number {
        0..=23 => 1,
        24..=0xff => 2,
        0x100..=0xffff => 3,
        _ => 5,
    }
}
