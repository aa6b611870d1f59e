use std::fmt;

use super::{pool, Rng, Slot};
use crate::hex;
use crate::reading::{limits, Device, Group};

const IDENTIFIER: usize = 32;
const ANSWER_BYTES: usize = 37;

/// What is lent to a run.
#[derive(Clone, Debug)]
pub struct World {
    pub verdict: bool,
    pub device: Device,
    pub slots: Vec<u8>,
    pub answers: Vec<u8>,
    pub trace: Vec<u8>,
}

impl fmt::Display for World {
    fn fmt(&self, f: &mut fmt::Formatter) -> fmt::Result {
        let device = &self.device;
        write!(
            f,
            "verdict {} device {}:{}:{}:{} slots {} answers {} trace {}",
            self.verdict,
            hex::encode(&device.vendor),
            hex::encode(&device.class),
            device.number,
            device.event_open,
            hex::encode(&self.slots),
            hex::encode(&self.answers),
            hex::encode(&self.trace),
        )
    }
}

/// A world that most often admits a run of this group, number and components.
pub fn world(rng: &mut Rng, group: Group, number: u32, identifiers: &[Vec<u8>]) -> World {
    World {
        verdict: rng.percent(98),
        device: device(rng, group, number),
        slots: slots(rng, identifiers),
        answers: answers(rng),
        trace: trace(rng),
    }
}

fn device(rng: &mut Rng, group: Group, number: u32) -> Device {
    let open = match group {
        Group::Install => 3,
        Group::Boot => 20,
    };
    Device {
        vendor: pool::identity(rng, pool::VENDOR, 4),
        class: pool::identity(rng, pool::CLASS, 4),
        number: device_number(rng, group, number),
        event_open: rng.percent(open),
    }
}

fn device_number(rng: &mut Rng, group: Group, number: u32) -> u32 {
    let below = number.saturating_sub(1);
    let good = match group {
        Group::Install => rng.pick(&[below, below, 0]),
        Group::Boot => number,
    };
    match rng.below(60) {
        0 => number,
        1 => below,
        2 => number.saturating_add(1),
        3 => rng.draw() as u32,
        _ => good,
    }
}

fn slot(rng: &mut Rng, identifier: &[u8]) -> Slot {
    let mut slot = Slot::holding(&rng.bytes(IDENTIFIER));
    slot.name(identifier);
    slot.length = identifier.len() as u8;
    slot.capacity = pool::capacity(rng);
    slot.present = match rng.below(20) {
        0..=2 => 0,
        3 => rng.pick(&[2, 255]),
        _ => 1,
    };
    let size = pool::size(rng);
    slot.size = if slot.present == 0 {
        size
    } else {
        size.min(slot.capacity)
    };
    slot.digest = pool::digest(rng);
    slot
}

fn slots(rng: &mut Rng, identifiers: &[Vec<u8>]) -> Vec<u8> {
    let mut slots: Vec<Slot> = identifiers.iter().map(|id| slot(rng, id)).collect();
    if rng.percent(30) {
        for _ in slots.len()..rng.within(1..=limits::SLOTS) {
            slots.push(extra_slot(rng));
        }
    }
    rng.shuffle(&mut slots);
    if rng.percent(6) {
        spoil(rng, &mut slots);
    }
    let mut bytes: Vec<u8> = slots.iter().flat_map(Slot::encode).collect();
    if rng.percent(1) {
        bytes.pop();
    } else if rng.percent(1) {
        bytes.push(rng.byte());
    }
    bytes
}

fn extra_slot(rng: &mut Rng) -> Slot {
    let length = rng.within(6..=32);
    let identifier = rng.bytes(length);
    slot(rng, &identifier)
}

fn spoil(rng: &mut Rng, slots: &mut Vec<Slot>) {
    if slots.is_empty() {
        return;
    }
    let at = rng.below(slots.len());
    match rng.below(8) {
        0 => slots.clear(),
        1 => slots.resize_with(9, || extra_slot(rng)),
        2 => {
            let again = slots[at].clone();
            slots.push(again);
        }
        3 => slots[at].length = rng.pick(&[0, 33, 255]),
        4 => {
            slots[at].present = rng.pick(&[1, 2, 255]);
            slots[at].capacity = 99;
            slots[at].size = 100;
        }
        5 => slots[at].length = slots[at].length % 32 + 1,
        6 => slots[at].identifier[0] ^= 0x80,
        _ => drop(slots.remove(at)),
    }
}

fn answers(rng: &mut Rng) -> Vec<u8> {
    let mut bytes = Vec::new();
    for _ in 0..rng.pick(&[0, 1, 2, 4, 8, 12]) {
        bytes.push(if rng.percent(92) { 0 } else { rng.byte() });
        bytes.extend(pool::size(rng).to_be_bytes());
        bytes.extend(pool::digest(rng));
    }
    if rng.percent(2) {
        let more = rng.within(1..=ANSWER_BYTES - 1);
        bytes.extend(rng.bytes(more));
    }
    bytes
}

fn trace(rng: &mut Rng) -> Vec<u8> {
    let length = match rng.below(100) {
        0..=1 => 2047,
        2 => rng.below(2048),
        3..=30 => 2049,
        31..=45 => 4000,
        _ => 2048,
    };
    rng.bytes(length)
}
