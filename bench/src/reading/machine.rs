use std::slice::ChunksExact;

use super::command::Argument;
use super::components::Components;
use super::parameters::Parameters;
use super::refusal::{Fault, Refusal};
use super::slots::{self, Slot, Slots};
use super::table::Code;
use super::{limits, Device, Group, Outcome};

const ANSWER_BYTES: usize = 37;
const EVENT_BYTES: usize = 8;
const EVENT_MARK: [u8; 2] = [0x53, 0x54];

/// What is to be run, by an envelope or by a program.
#[derive(Clone, Debug)]
pub struct Header<'a> {
    pub group: Group,
    pub number: u32,
    pub components: Components<'a>,
}

/// What is lent to a run.
pub struct Inputs<'a> {
    pub verdict: bool,
    pub device: &'a Device,
    pub slots: &'a mut [u8],
    pub answers: &'a [u8],
    pub trace: &'a mut [u8],
}

/// Why a run does not go on to its end.
#[derive(Clone, Copy, Debug)]
pub enum Stop {
    ConditionFailed,
    Started,
    Failed(Failure),
}

#[derive(Clone, Copy, Debug)]
#[repr(u8)]
pub enum Failure {
    ParameterUnset = 32,
    Aborted = 33,
    NoAnswerLeft = 34,
    BadStatus = 35,
    TooLarge = 36,
    ImageAbsent = 37,
    NothingToRun = 38,
}

impl Failure {
    fn unless(self, holds: bool) -> Result<(), Stop> {
        holds.then_some(()).ok_or(Stop::Failed(self))
    }
}

impl From<Failure> for Stop {
    fn from(failure: Failure) -> Self {
        Stop::Failed(failure)
    }
}

fn condition(holds: bool) -> Result<(), Stop> {
    holds.then_some(()).ok_or(Stop::ConditionFailed)
}

/// The state of a run.
pub struct Machine<'a> {
    header: Header<'a>,
    device: &'a Device,
    slots: Slots<'a>,
    slot_of: [usize; limits::COMPONENTS],
    parameters: [Parameters<'a>; limits::COMPONENTS],
    answers: ChunksExact<'a, u8>,
    used: usize,
    trace: &'a mut [u8],
    events: usize,
    last_place: usize,
}

impl<'a> Machine<'a> {
    pub fn new(header: Header<'a>, inputs: Inputs<'a>) -> Result<Self, Refusal> {
        let slot_of = admit(&header, &inputs)?;
        Ok(Machine {
            header,
            device: inputs.device,
            slots: Slots::new(inputs.slots),
            slot_of,
            parameters: Default::default(),
            answers: inputs.answers.chunks_exact(ANSWER_BYTES),
            used: 0,
            trace: inputs.trace,
            events: 0,
            last_place: 0,
        })
    }

    /// Does one command and writes its event.
    pub fn perform(
        &mut self,
        code: Code,
        component: usize,
        place: usize,
        argument: Argument<'a>,
    ) -> Result<(), Stop> {
        let result = self.effect(code, component, argument);
        let number = match result {
            Ok(()) | Err(Stop::Started) => 0,
            Err(Stop::ConditionFailed) => 1,
            Err(Stop::Failed(failure)) => failure as u8,
        };
        self.write_event(code, component, place, number);
        result
    }

    pub fn outcome(&self, result: Result<(), Stop>) -> Outcome {
        let end = match result {
            Ok(()) => 0,
            Err(Stop::ConditionFailed) => 1,
            Err(Stop::Started) => 2,
            Err(Stop::Failed(failure)) => failure as u8,
        };
        let finished = result.is_ok();
        let installed = finished && self.header.group == Group::Install;
        Outcome {
            end,
            place: if finished { 0 } else { self.last_place },
            events: self.events,
            used: self.used,
            number: if installed {
                self.header.number
            } else {
                self.device.number
            },
        }
    }

    fn write_event(&mut self, code: Code, component: usize, place: usize, result: u8) {
        let [high, low] = (place as u16).to_be_bytes();
        let [s, t] = EVENT_MARK;
        let event: [u8; EVENT_BYTES] = [s, t, code as u8, component as u8, high, low, result, 0];
        let from = self.events * EVENT_BYTES;
        self.trace[from..from + EVENT_BYTES].copy_from_slice(&event);
        self.events += 1;
        self.last_place = place;
    }

    fn effect(&mut self, code: Code, component: usize, argument: Argument<'a>) -> Result<(), Stop> {
        let parameters = &mut self.parameters[component];
        match (code, argument) {
            (Code::Vendor, Argument::Identity(vendor)) => condition(vendor == self.device.vendor),
            (Code::Class, Argument::Identity(class)) => condition(class == self.device.class),
            (Code::ImageMatch, _) => self.image_match(component),
            (Code::SetParameters, Argument::Parameters(new)) => {
                *parameters = parameters.or(new.parameters);
                Ok(())
            }
            (Code::OverrideParameters, Argument::Parameters(new)) => {
                *parameters = new.parameters.or(*parameters);
                Ok(())
            }
            (Code::Abort, _) => Err(Failure::Aborted.into()),
            (Code::Fetch, _) => self.fetch(component),
            (Code::Copy, _) => self.copy(component),
            (Code::Swap, _) => self.swap(component),
            (Code::Run, _) => self.start(component),
            // Set component index shows in its event alone.
            _ => Ok(()),
        }
    }

    fn image_match(&self, component: usize) -> Result<(), Stop> {
        let wanted = &self.parameters[component];
        let digest = wanted.digest.ok_or(Failure::ParameterUnset)?;
        let slot = self.slot(component);
        let same_size = wanted.size.is_none_or(|size| size == slot.size());
        condition(slot.present() && slot.digest() == digest && same_size)
    }

    fn fetch(&mut self, component: usize) -> Result<(), Stop> {
        Failure::ParameterUnset.unless(self.parameters[component].uri.is_some())?;
        let answer = self.answers.next().ok_or(Failure::NoAnswerLeft)?;
        self.used += 1;
        let (&[status, a, b, c, d], digest) = answer.split_first_chunk().expect("37 bytes");
        let size = u32::from_be_bytes([a, b, c, d]);
        Failure::BadStatus.unless(status == 0)?;
        Failure::TooLarge.unless(size <= self.slot(component).capacity())?;
        self.slots.store(self.slot_of[component], size, digest);
        Ok(())
    }

    fn copy(&mut self, component: usize) -> Result<(), Stop> {
        let source = self.source(component)?;
        let (from, to) = (self.slot(source), self.slot(component));
        Failure::ImageAbsent.unless(from.present())?;
        Failure::TooLarge.unless(from.size() <= to.capacity())?;
        self.slots
            .copy(self.slot_of[source], self.slot_of[component]);
        Ok(())
    }

    fn swap(&mut self, component: usize) -> Result<(), Stop> {
        let source = self.source(component)?;
        let (one, other) = (self.slot(source), self.slot(component));
        Failure::ImageAbsent.unless(one.present() && other.present())?;
        let fit = one.size() <= other.capacity() && other.size() <= one.capacity();
        Failure::TooLarge.unless(fit)?;
        self.slots
            .swap(self.slot_of[source], self.slot_of[component]);
        Ok(())
    }

    fn start(&self, component: usize) -> Result<(), Stop> {
        Failure::NothingToRun.unless(self.slot(component).present())?;
        Err(Stop::Started)
    }

    fn source(&self, component: usize) -> Result<usize, Failure> {
        let source = self.parameters[component].source;
        source.ok_or(Failure::ParameterUnset)
    }

    fn slot(&self, component: usize) -> Slot<'_> {
        self.slots.get(self.slot_of[component])
    }
}

/// Refuses what may not run; otherwise gives the slot of each component.
fn admit(header: &Header, inputs: &Inputs) -> Result<[usize; limits::COMPONENTS], Refusal> {
    let install = header.group == Group::Install;
    let device = inputs.device;
    let due = if install {
        header.number > device.number
    } else {
        header.number == device.number
    };
    Fault::SignatureRejected.unless(inputs.verdict, 0)?;
    Fault::EventOpen.unless(!(install && device.event_open), 0)?;
    Fault::WrongSequenceNumber.unless(due, 0)?;
    Fault::BadSlots.unless(slots::well_formed(inputs.slots), 0)?;
    let slot_of = assign(&header.components, inputs.slots)?;
    Fault::BadAnswers.unless(inputs.answers.len().is_multiple_of(ANSWER_BYTES), 0)?;
    Fault::TraceTooShort.unless(inputs.trace.len() >= limits::TRACE_BYTES, 0)?;
    Ok(slot_of)
}

fn assign(components: &Components, slots: &[u8]) -> Result<[usize; limits::COMPONENTS], Refusal> {
    let mut slot_of = [0; limits::COMPONENTS];
    for (slot, identifier) in slot_of.iter_mut().zip(components.identifiers()) {
        *slot = slots::find(slots, identifier).ok_or(Fault::ComponentWithoutSlot.at(0))?;
    }
    Ok(slot_of)
}
