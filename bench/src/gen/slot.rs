use super::pool;

const IDENTIFIER: usize = 32;
const CAPACITY: u32 = 200;

/// A slot as it is lent, good or not.
#[derive(Clone, Debug)]
pub struct Slot {
    pub length: u8,
    pub identifier: [u8; IDENTIFIER],
    pub capacity: u32,
    pub present: u8,
    pub size: u32,
    pub digest: [u8; 32],
}

impl Slot {
    /// A slot that holds the wanted image. Of an identifier that is too long,
    /// as much stands there as there is room for.
    pub fn holding(identifier: &[u8]) -> Self {
        let mut slot = Slot {
            length: identifier.len() as u8,
            identifier: [0; IDENTIFIER],
            capacity: CAPACITY,
            present: 1,
            size: pool::SIZE,
            digest: pool::DIGEST,
        };
        slot.name(identifier);
        slot
    }

    /// Puts the identifier's bytes and keeps those behind it.
    pub fn name(&mut self, identifier: &[u8]) {
        for (to, from) in self.identifier.iter_mut().zip(identifier) {
            *to = *from;
        }
    }

    pub fn encode(&self) -> Vec<u8> {
        let mut out = vec![self.length];
        out.extend(self.identifier);
        out.extend(self.capacity.to_be_bytes());
        out.push(self.present);
        out.extend(self.size.to_be_bytes());
        out.extend(self.digest);
        out
    }
}
