//! The project's library, through its C interface.

use crate::answer::{CheckAnswer, Jobs, Lent, NewerAnswer, RunAnswer, TranslateAnswer};
use crate::gen::World;
use crate::reading::{self, Group};

#[repr(C)]
#[derive(Clone, Copy)]
struct Device {
    vendor: [u8; 16],
    class_id: [u8; 16],
    number: usize,
    event: bool,
}

impl From<&reading::Device> for Device {
    fn from(device: &reading::Device) -> Self {
        Device {
            vendor: device.vendor,
            class_id: device.class,
            number: device.number as usize,
            event: device.event_open,
        }
    }
}

unsafe extern "C" {
    fn pitvorgas_check(envelope: *const u8, n: usize) -> CheckAnswer;

    fn pitvorgas_newer(a: *const u8, an: usize, b: *const u8, bn: usize) -> NewerAnswer;

    fn pitvorgas_translate(
        envelope: *const u8,
        n: usize,
        boot: bool,
        room: *mut u8,
        room_n: usize,
    ) -> TranslateAnswer;

    fn pitvorgas_test_program(program: *const u8, n: usize) -> bool;

    fn pitvorgas_run(
        envelope: *const u8,
        n: usize,
        boot: bool,
        verdict: bool,
        device: Device,
        slots: *mut u8,
        slots_n: usize,
        answers: *const u8,
        answers_n: usize,
        trace: *mut u8,
        trace_n: usize,
    ) -> RunAnswer;

    fn pitvorgas_run_program(
        program: *const u8,
        n: usize,
        verdict: bool,
        device: Device,
        slots: *mut u8,
        slots_n: usize,
        answers: *const u8,
        answers_n: usize,
        trace: *mut u8,
        trace_n: usize,
    ) -> RunAnswer;
}

pub struct Ours;

// SAFETY of every call: each pointer and length come from one slice, and no
// slice that may be written overlaps another.
impl Jobs for Ours {
    fn check(&self, envelope: &[u8]) -> CheckAnswer {
        unsafe { pitvorgas_check(envelope.as_ptr(), envelope.len()) }
    }

    fn newer(&self, first: &[u8], second: &[u8]) -> NewerAnswer {
        unsafe { pitvorgas_newer(first.as_ptr(), first.len(), second.as_ptr(), second.len()) }
    }

    fn translate(&self, envelope: &[u8], group: Group, room: &mut [u8]) -> TranslateAnswer {
        unsafe {
            pitvorgas_translate(
                envelope.as_ptr(),
                envelope.len(),
                group == Group::Boot,
                room.as_mut_ptr(),
                room.len(),
            )
        }
    }

    fn test_program(&self, program: &[u8]) -> bool {
        unsafe { pitvorgas_test_program(program.as_ptr(), program.len()) }
    }

    fn run(&self, envelope: &[u8], group: Group, world: &World, lent: &mut Lent) -> RunAnswer {
        unsafe {
            pitvorgas_run(
                envelope.as_ptr(),
                envelope.len(),
                group == Group::Boot,
                world.verdict,
                Device::from(&world.device),
                lent.slots.as_mut_ptr(),
                lent.slots.len(),
                world.answers.as_ptr(),
                world.answers.len(),
                lent.trace.as_mut_ptr(),
                lent.trace.len(),
            )
        }
    }

    fn run_program(&self, program: &[u8], world: &World, lent: &mut Lent) -> RunAnswer {
        unsafe {
            pitvorgas_run_program(
                program.as_ptr(),
                program.len(),
                world.verdict,
                Device::from(&world.device),
                lent.slots.as_mut_ptr(),
                lent.slots.len(),
                world.answers.as_ptr(),
                world.answers.len(),
                lent.trace.as_mut_ptr(),
                lent.trace.len(),
            )
        }
    }
}
