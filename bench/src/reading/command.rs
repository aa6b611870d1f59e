use super::cbor::{Kind, Reader};
use super::limits;
use super::parameters::Assignment;
use super::refusal::{Fault, Refusal};
use super::table::{self, Code, Shape};

#[derive(Clone, Debug)]
pub struct Command<'a> {
    pub code: Code,
    pub place: usize,
    pub argument: Argument<'a>,
}

#[derive(Clone, Debug)]
pub enum Argument<'a> {
    None,
    Identity(&'a [u8]),
    Index(usize),
    Parameters(Assignment<'a>),
    Sequence(Sequence<'a>),
    Alternatives(Alternatives<'a>),
}

/// The commands of a sequence that check has accepted.
#[derive(Clone, Debug)]
pub struct Sequence<'a> {
    reader: Reader<'a>,
    left: u32,
}

impl<'a> Sequence<'a> {
    pub fn new(mut reader: Reader<'a>) -> Self {
        let left = reader.item().map_or(0, |head| head.number / 2);
        Sequence { reader, left }
    }
}

impl<'a> Iterator for Sequence<'a> {
    type Item = Command<'a>;

    fn next(&mut self) -> Option<Command<'a>> {
        self.left = self.left.checked_sub(1)?;
        Command::read(&mut self.reader).ok()
    }
}

/// The sequences of a try each that check has accepted.
#[derive(Clone, Debug)]
pub struct Alternatives<'a> {
    reader: Reader<'a>,
    left: u32,
}

impl Alternatives<'_> {
    pub fn is_empty(&self) -> bool {
        self.left == 0
    }
}

impl<'a> Iterator for Alternatives<'a> {
    type Item = Sequence<'a>;

    fn next(&mut self) -> Option<Sequence<'a>> {
        self.left = self.left.checked_sub(1)?;
        self.reader.enclosed().ok().map(Sequence::new)
    }
}

impl<'a> Command<'a> {
    fn read(reader: &mut Reader<'a>) -> Result<Self, Refusal> {
        let code = reader.number()?;
        let entry = table::lookup(code.number).ok_or(Fault::UnlistedCommand.at(code.place))?;
        Ok(Command {
            code: entry.code,
            place: code.place,
            argument: Argument::read(entry.argument, reader)?,
        })
    }
}

impl<'a> Argument<'a> {
    fn read(shape: Shape, reader: &mut Reader<'a>) -> Result<Self, Refusal> {
        Ok(match shape {
            Shape::Nil => {
                reader.nil()?;
                Argument::None
            }
            Shape::Identity => Argument::Identity(reader.string(Kind::Bytes, 16..=16)?),
            Shape::Index => Argument::Index(reader.index(limits::COMPONENTS)?),
            Shape::Parameters => {
                Argument::Parameters(Assignment::read(reader, limits::COMPONENTS)?)
            }
            Shape::Sequence => Argument::Sequence(Sequence::new(reader.enclosed()?)),
            Shape::Alternatives => Argument::Alternatives(alternatives(reader)?),
        })
    }
}

fn alternatives<'a>(reader: &mut Reader<'a>) -> Result<Alternatives<'a>, Refusal> {
    let left = reader.array(1..=limits::ALTERNATIVES)?;
    let alternatives = Alternatives {
        reader: reader.clone(),
        left,
    };
    for _ in 0..left {
        reader.enclosed()?;
    }
    Ok(alternatives)
}
