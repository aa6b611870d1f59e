use super::{limits, Span};

/// The component identifiers, where they stand in the lent bytes.
#[derive(Clone, Debug)]
pub struct Components<'a> {
    lent: &'a [u8],
    spans: [Span; limits::COMPONENTS],
    count: usize,
}

impl<'a> Components<'a> {
    pub fn new(lent: &'a [u8]) -> Self {
        Components {
            lent,
            spans: [Span::default(); limits::COMPONENTS],
            count: 0,
        }
    }

    pub fn push(&mut self, identifier: Span) {
        self.spans[self.count] = identifier;
        self.count += 1;
    }

    pub fn count(&self) -> usize {
        self.count
    }

    pub fn spans(&self) -> &[Span] {
        &self.spans[..self.count]
    }

    pub fn identifiers(&self) -> impl Iterator<Item = &'a [u8]> + '_ {
        self.spans()
            .iter()
            .map(|span| &self.lent[span.from..span.to])
    }

    pub fn contains(&self, identifier: Span) -> bool {
        let wanted = &self.lent[identifier.from..identifier.to];
        self.identifiers().any(|known| known == wanted)
    }
}
