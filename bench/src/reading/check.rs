use super::cbor::{Kind, Reader};
use super::command::Sequence;
use super::components::Components;
use super::parameters::Assignment;
use super::refusal::{Fault, Refusal};
use super::table::{self, Entry, Shape};
use super::{limits, Group, Section, Span};

const VERSION: u32 = 1;

/// An accepted manifest.
#[derive(Clone, Debug)]
pub struct Manifest<'a> {
    pub number: u32,
    pub components: Components<'a>,
    pub span: Span,
    envelope: &'a [u8],
    sequences: [Option<Span>; Section::ALL.len()],
}

impl<'a> Manifest<'a> {
    /// Where the sequence of a section stands.
    pub fn sequence(&self, section: Section) -> Option<Span> {
        self.sequences[section as usize]
    }

    /// The sequences that a run of the group does: common before each section
    /// that is present, or once where there is none.
    pub(super) fn sequences(&self, group: Group) -> impl Iterator<Item = Sequence<'a>> + '_ {
        let common = self.sequence(Section::Common);
        let sections = || group.sections().iter().filter_map(|&s| self.sequence(s));
        let alone = common.filter(|_| sections().next().is_none());
        let repeated = sections().flat_map(move |section| common.into_iter().chain([section]));
        let spans = alone.into_iter().chain(repeated);
        spans.map(|span| Sequence::new(Reader::within(self.envelope, span)))
    }
}

pub fn check(envelope: &[u8]) -> Result<Manifest<'_>, Refusal> {
    Fault::EnvelopeTooLong.unless(envelope.len() <= limits::ENVELOPE_BYTES, 0)?;
    let mut reader = Reader::new(envelope);
    reader.map(2..=2)?;
    reader.key(1)?;
    authentication(&mut reader)?;
    reader.key(3)?;
    let manifest = manifest(envelope, reader.enclosed()?)?;
    reader.finish()?;
    Ok(manifest)
}

fn authentication(reader: &mut Reader) -> Result<(), Refusal> {
    let item = reader.item()?;
    item.expect(matches!(item.kind, Kind::Nil | Kind::Bytes))?;
    if item.kind == Kind::Bytes {
        reader.content(item);
    }
    Ok(())
}

fn manifest<'a>(envelope: &'a [u8], mut reader: Reader<'a>) -> Result<Manifest<'a>, Refusal> {
    let span = reader.rest();
    let promised = reader.map(3..=8)? - 3;
    reader.key(1)?;
    let version = reader.number()?;
    Fault::WrongVersion.unless(version.number == VERSION, version.place)?;
    reader.key(2)?;
    let number = reader.number()?.number;
    reader.key(3)?;
    let mut checker = Checker::new(envelope, promised);
    checker.common(reader.enclosed()?)?;
    checker.sections(&mut reader, promised)?;
    reader.finish()?;
    Ok(Manifest {
        number,
        components: checker.components,
        span,
        envelope,
        sequences: checker.sequences,
    })
}

struct Checker<'a> {
    components: Components<'a>,
    sequences: [Option<Span>; Section::ALL.len()],
    common_weight: usize,
    weight: usize,
}

impl<'a> Checker<'a> {
    /// For a manifest whose head promises so many sections.
    fn new(envelope: &'a [u8], promised: u32) -> Self {
        Checker {
            components: Components::new(envelope),
            sequences: Default::default(),
            common_weight: promised.max(1) as usize,
            weight: 0,
        }
    }

    /// What each command of the section weighs, nested ones too.
    fn weight_in(&self, section: Section) -> usize {
        match section {
            Section::Common => self.common_weight,
            _ => 1,
        }
    }

    fn common(&mut self, mut reader: Reader) -> Result<(), Refusal> {
        let entries = reader.map(1..=2)?;
        reader.key(2)?;
        self.list(reader.enclosed()?)?;
        if entries == 2 {
            reader.key(4)?;
            self.section(Section::Common, &mut reader)?;
        }
        reader.finish()
    }

    fn list(&mut self, mut reader: Reader) -> Result<(), Refusal> {
        let count = reader.array(1..=limits::COMPONENTS as u32)?;
        for _ in 0..count {
            self.identifier(&mut reader)?;
        }
        reader.finish()
    }

    fn identifier(&mut self, reader: &mut Reader) -> Result<(), Refusal> {
        let from = reader.position();
        let parts = reader.array(1..=limits::IDENTIFIER_PARTS)?;
        for _ in 0..parts {
            let part = reader.expect(Kind::Bytes)?;
            reader.content(part);
        }
        let to = reader.position();
        Fault::WrongItem.unless(to - from <= limits::IDENTIFIER_BYTES, from)?;
        let identifier = Span { from, to };
        Fault::RepeatedIdentifier.unless(!self.components.contains(identifier), from)?;
        self.components.push(identifier);
        Ok(())
    }

    fn sections(&mut self, reader: &mut Reader, count: u32) -> Result<(), Refusal> {
        let mut last = None;
        for _ in 0..count {
            let key = reader.number()?;
            let section = Section::from_key(key.number)
                .filter(|&section| last < Some(section))
                .ok_or(Fault::WrongItem.at(key.place))?;
            self.section(section, reader)?;
            last = Some(section);
        }
        Ok(())
    }

    fn section(&mut self, section: Section, reader: &mut Reader) -> Result<(), Refusal> {
        let span = self.sequence(section, reader, 1)?;
        self.sequences[section as usize] = Some(span);
        Ok(())
    }

    /// A sequence in a byte string.
    fn sequence(
        &mut self,
        section: Section,
        outer: &mut Reader,
        depth: usize,
    ) -> Result<Span, Refusal> {
        let mut reader = outer.enclosed()?;
        let span = reader.rest();
        let items = reader.array(0..=limits::SEQUENCE_ITEMS)?;
        Fault::WrongItem.unless(items % 2 == 0, span.from)?;
        Fault::TooDeep.unless(depth <= limits::DEPTH, span.from)?;
        for _ in 0..items / 2 {
            self.command(section, &mut reader, depth)?;
        }
        reader.finish()?;
        Ok(span)
    }

    fn command(
        &mut self,
        section: Section,
        reader: &mut Reader,
        depth: usize,
    ) -> Result<(), Refusal> {
        let components = self.components.count();
        match self.code(section, reader)?.argument {
            Shape::Nil => reader.nil(),
            Shape::Identity => reader.string(Kind::Bytes, 16..=16).map(drop),
            Shape::Index => reader.index(components).map(drop),
            Shape::Parameters => Assignment::read(reader, components).map(drop),
            Shape::Sequence => self.sequence(section, reader, depth + 1).map(drop),
            Shape::Alternatives => self.alternatives(section, reader, depth + 1),
        }
    }

    fn code(&mut self, section: Section, reader: &mut Reader) -> Result<&'static Entry, Refusal> {
        let code = reader.number()?;
        let entry = table::lookup(code.number).ok_or(Fault::UnlistedCommand.at(code.place))?;
        Fault::CommandNotAllowed.unless(entry.allowed_in(section), code.place)?;
        self.weight += self.weight_in(section);
        Fault::TooManyCommands.unless(self.weight <= limits::COMMANDS, code.place)?;
        Ok(entry)
    }

    fn alternatives(
        &mut self,
        section: Section,
        reader: &mut Reader,
        depth: usize,
    ) -> Result<(), Refusal> {
        let count = reader.array(1..=limits::ALTERNATIVES)?;
        for _ in 0..count {
            self.sequence(section, reader, depth)?;
        }
        Ok(())
    }
}
