use super::Form;
use crate::gen::{Case, Slot, World};
use crate::hex;
use crate::reading::{Device, Group};

/// A case that is written as text.
pub fn parse(text: &str, form: Form) -> Option<Case> {
    let fields: Vec<&str> = text.split(' ').collect();
    Some(match fields[..] {
        ["check", envelope] => Case::Check {
            envelope: hex::decode(envelope)?,
        },
        ["newer", first, second] => Case::Newer {
            first: hex::decode(first)?,
            second: hex::decode(second)?,
        },
        ["translate", envelope, install, room] => Case::Translate {
            envelope: hex::decode(envelope)?,
            group: group(install)?,
            room: vec![Case::ROOM_FILL; room.parse().ok()?],
        },
        ["run", envelope, install, ref lent @ ..] => Case::Run {
            envelope: hex::decode(envelope)?,
            group: group(install)?,
            world: world(lent, form)?,
        },
        ["program", program, ref lent @ ..] => Case::RunProgram {
            program: hex::decode(program)?,
            world: world(lent, form)?,
        },
        _ => return None,
    })
}

fn world(fields: &[&str], form: Form) -> Option<World> {
    let [verdict, device, slots, answers, trace] = fields else {
        return None;
    };
    Some(World {
        verdict: flag(verdict)?,
        device: self::device(device)?,
        slots: self::slots(slots)?,
        answers: hex::decode(answers)?,
        trace: self::trace(trace, form)?,
    })
}

fn group(install: &str) -> Option<Group> {
    Some(if flag(install)? {
        Group::Install
    } else {
        Group::Boot
    })
}

fn flag(text: &str) -> Option<bool> {
    match text {
        "0" => Some(false),
        "1" => Some(true),
        _ => None,
    }
}

fn device(text: &str) -> Option<Device> {
    let fields: Vec<&str> = text.split(':').collect();
    let [vendor, class, number, event_open] = fields[..] else {
        return None;
    };
    Some(Device {
        vendor: hex::decode(vendor)?.try_into().ok()?,
        class: hex::decode(class)?.try_into().ok()?,
        number: number.parse().ok()?,
        event_open: flag(event_open)?,
    })
}

fn slots(text: &str) -> Option<Vec<u8>> {
    if text == "-" {
        return Some(Vec::new());
    }
    let slots: Option<Vec<Vec<u8>>> = text.split(',').map(slot).collect();
    Some(slots?.concat())
}

/// A slot in bytes; of an identifier that is too long, 32 bytes stand there.
fn slot(text: &str) -> Option<Vec<u8>> {
    let fields: Vec<&str> = text.split(':').collect();
    let [identifier, capacity, present, size, digest] = fields[..] else {
        return None;
    };
    let identifier = hex::decode(identifier)?;
    let slot = Slot {
        length: identifier.len().try_into().ok()?,
        capacity: capacity.parse().ok()?,
        present: flag(present)?.into(),
        size: size.parse().ok()?,
        digest: hex::decode(digest)?.try_into().ok()?,
        ..Slot::holding(&identifier)
    };
    Some(slot.encode())
}

fn trace(text: &str, form: Form) -> Option<Vec<u8>> {
    let (length, byte) = text.split_once(':')?;
    let base = match form {
        Form::Document01 => 10,
        Form::Document02 => 16,
    };
    let fill = u8::from_str_radix(byte, base).ok()?;
    Some(vec![fill; length.parse().ok()?])
}
