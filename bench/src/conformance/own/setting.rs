//! What a run is lent, to be changed in one place.

use crate::gen::{pool, Slot, World};
use crate::reading::{limits, Device, Group};

pub const NUMBER: u32 = 7;
pub const TRACE_FILL: u8 = 0xee;
pub const FETCHED: [u8; 32] = [0x22; 32];

#[derive(Clone, Debug)]
pub struct Setting {
    pub verdict: bool,
    pub device: Device,
    pub slots: Vec<Slot>,
    pub answers: Vec<u8>,
    pub trace: usize,
}

impl Setting {
    /// A run of this group and number is admitted, and each component holds
    /// the wanted image.
    pub fn new(group: Group, number: u32, identifiers: &[Vec<u8>]) -> Self {
        let before = match group {
            Group::Install => number.saturating_sub(1),
            Group::Boot => number,
        };
        Setting {
            verdict: true,
            device: Device {
                vendor: pool::VENDOR,
                class: pool::CLASS,
                number: before,
                event_open: false,
            },
            slots: identifiers.iter().map(|id| Slot::holding(id)).collect(),
            answers: Vec::new(),
            trace: limits::TRACE_BYTES,
        }
    }

    /// Nothing that is lent is good.
    pub fn refused() -> Self {
        let mut setting = Setting::new(Group::Install, 1, &[]);
        setting.verdict = false;
        setting.device.event_open = true;
        setting.answers = vec![0];
        setting.trace = 0;
        setting
    }

    /// One more answer of the host.
    pub fn answer(&mut self, status: u8, size: u32) {
        self.answers.push(status);
        self.answers.extend(size.to_be_bytes());
        self.answers.extend(FETCHED);
    }

    pub fn world(&self) -> World {
        World {
            verdict: self.verdict,
            device: self.device.clone(),
            slots: self.slots.iter().flat_map(Slot::encode).collect(),
            answers: self.answers.clone(),
            trace: vec![TRACE_FILL; self.trace],
        }
    }
}
