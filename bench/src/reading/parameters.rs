use super::cbor::{Item, Kind, Reader};
use super::limits;
use super::refusal::{Fault, Refusal};

pub const COERCE: u32 = 2;
pub const URI: u32 = 6;
pub const SOURCE: u32 = 10;
pub const DIGEST: u32 = 11;
pub const SIZE: u32 = 12;

/// The parameters of one component.
#[derive(Clone, Copy, Debug, Default)]
pub struct Parameters<'a> {
    pub uri: Option<&'a [u8]>,
    pub source: Option<usize>,
    pub digest: Option<&'a [u8]>,
    pub size: Option<u32>,
}

impl Parameters<'_> {
    /// These parameters, with those of `other` where one is unset.
    pub fn or(self, other: Self) -> Self {
        Parameters {
            uri: self.uri.or(other.uri),
            source: self.source.or(other.source),
            digest: self.digest.or(other.digest),
            size: self.size.or(other.size),
        }
    }
}

/// What a set or override parameters command holds.
#[derive(Clone, Copy, Debug, Default)]
pub struct Assignment<'a> {
    pub coerce: Option<bool>,
    pub parameters: Parameters<'a>,
}

impl<'a> Assignment<'a> {
    pub fn read(reader: &mut Reader<'a>, components: usize) -> Result<Self, Refusal> {
        let entries = reader.map(1..=limits::PARAMETERS)?;
        let mut assignment = Assignment::default();
        let mut last = None;
        for _ in 0..entries {
            let key = reader.number()?;
            key.expect(last < Some(key.number))?;
            assignment.read_value(key, reader, components)?;
            last = Some(key.number);
        }
        Ok(assignment)
    }

    fn read_value(
        &mut self,
        key: Item,
        reader: &mut Reader<'a>,
        components: usize,
    ) -> Result<(), Refusal> {
        let parameters = &mut self.parameters;
        match key.number {
            COERCE => self.coerce = Some(reader.boolean()?),
            URI => parameters.uri = Some(reader.string(Kind::Text, 1..=limits::URI_BYTES)?),
            SOURCE => parameters.source = Some(reader.index(components)?),
            DIGEST => parameters.digest = Some(reader.string(Kind::Bytes, 32..=32)?),
            SIZE => parameters.size = Some(reader.number()?.number),
            _ => return Err(Fault::UnlistedParameter.at(key.place)),
        }
        Ok(())
    }
}
