use super::limits;

pub const SLOT_BYTES: usize = 74;
const IDENTIFIER: usize = 1;
const CAPACITY: usize = 33;
const IMAGE: usize = 37;
const PRESENT: u8 = 1;

/// One slot: the identifier's length, the identifier and its padding, the
/// capacity, and the image (present, size, digest).
#[derive(Clone, Copy)]
pub struct Slot<'a>(&'a [u8; SLOT_BYTES]);

impl<'a> Slot<'a> {
    pub fn identifier(self) -> Option<&'a [u8]> {
        let length = usize::from(self.0[0]);
        let sound = (1..=limits::IDENTIFIER_BYTES).contains(&length);
        sound.then(|| &self.0[IDENTIFIER..IDENTIFIER + length])
    }

    pub fn capacity(self) -> u32 {
        self.number(CAPACITY)
    }

    pub fn present(self) -> bool {
        self.0[IMAGE] != 0
    }

    pub fn size(self) -> u32 {
        self.number(IMAGE + 1)
    }

    pub fn digest(self) -> &'a [u8] {
        &self.0[IMAGE + 5..]
    }

    fn number(self, at: usize) -> u32 {
        u32::from_be_bytes(self.0[at..at + 4].try_into().expect("four bytes"))
    }

    fn sound(self) -> bool {
        self.identifier().is_some() && (!self.present() || self.size() <= self.capacity())
    }
}

pub fn well_formed(bytes: &[u8]) -> bool {
    let (slots, rest) = bytes.as_chunks();
    rest.is_empty()
        && (1..=limits::SLOTS).contains(&slots.len())
        && slots.iter().all(|slot| Slot(slot).sound())
        && distinct(slots)
}

fn distinct(slots: &[[u8; SLOT_BYTES]]) -> bool {
    (1..slots.len()).all(|later| {
        let identifier = Slot(&slots[later]).identifier();
        slots[..later]
            .iter()
            .all(|earlier| Slot(earlier).identifier() != identifier)
    })
}

pub fn find(bytes: &[u8], identifier: &[u8]) -> Option<usize> {
    let (slots, _) = bytes.as_chunks();
    slots
        .iter()
        .position(|slot| Slot(slot).identifier() == Some(identifier))
}

/// The lent slots of a run.
pub struct Slots<'a>(&'a mut [[u8; SLOT_BYTES]]);

impl<'a> Slots<'a> {
    pub fn new(bytes: &'a mut [u8]) -> Self {
        Slots(bytes.as_chunks_mut().0)
    }

    pub fn get(&self, index: usize) -> Slot<'_> {
        Slot(&self.0[index])
    }

    pub fn store(&mut self, index: usize, size: u32, digest: &[u8]) {
        let image = &mut self.0[index][IMAGE..];
        image[0] = PRESENT;
        image[1..5].copy_from_slice(&size.to_be_bytes());
        image[5..].copy_from_slice(digest);
    }

    pub fn copy(&mut self, source: usize, target: usize) {
        let slot = self.0[source];
        self.0[target][IMAGE..].copy_from_slice(&slot[IMAGE..]);
    }

    pub fn swap(&mut self, one: usize, other: usize) {
        let slot = self.0[one];
        self.copy(other, one);
        self.0[other][IMAGE..].copy_from_slice(&slot[IMAGE..]);
    }
}
