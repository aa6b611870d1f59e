//! The compact form of cases: one after the other, each a length and that many
//! bytes, which are a job and its fields. Numbers are big-endian.

use super::head::HeadCase;
use crate::gen::{Case, World};
use crate::reading::{Device, Group};

const CHECK: u8 = 1;
const NEWER: u8 = 2;
const TRANSLATE: u8 = 3;
const RUN: u8 = 4;
const RUN_PROGRAM: u8 = 5;
const HEAD: u8 = 6;

/// What a case asks for.
#[derive(Clone, Debug)]
pub enum Asked {
    Job(Case),
    Head(HeadCase),
}

/// A case in the compact form, or nothing where the form does not take it.
pub fn encode(case: &Case) -> Option<Vec<u8>> {
    let fields = match case {
        Case::Check { envelope } => [&[CHECK], &envelope[..]].concat(),
        Case::Newer { first, second } => [vec![NEWER], string(first)?, second.clone()].concat(),
        Case::Translate {
            envelope,
            group,
            room,
        } => {
            let length = length(room)?;
            [&[TRANSLATE, group_byte(*group)], &length[..], envelope].concat()
        }
        Case::Run {
            envelope,
            group,
            world,
        } => [&[RUN, group_byte(*group)], &lent(world)?[..], envelope].concat(),
        Case::RunProgram { program, world } => {
            [&[RUN_PROGRAM, 0], &lent(world)?[..], program].concat()
        }
    };
    string(&fields)
}

pub fn encode_head(case: &HeadCase) -> Option<Vec<u8>> {
    let place = case.place.to_be_bytes();
    string(&[&[HEAD], &place[..], &case.envelope].concat())
}

fn group_byte(group: Group) -> u8 {
    match group {
        Group::Install => 0,
        Group::Boot => 1,
    }
}

fn length(bytes: &[u8]) -> Option<[u8; 2]> {
    let length = u16::try_from(bytes.len()).ok()?;
    Some(length.to_be_bytes())
}

/// A length and that many bytes.
fn string(bytes: &[u8]) -> Option<Vec<u8>> {
    Some([&length(bytes)?[..], bytes].concat())
}

fn lent(world: &World) -> Option<Vec<u8>> {
    let device = &world.device;
    let mut out = vec![world.verdict.into()];
    out.extend(device.vendor);
    out.extend(device.class);
    out.extend(device.number.to_be_bytes());
    out.push(device.event_open.into());
    out.extend(trace(&world.trace)?);
    out.extend(string(&world.slots)?);
    out.extend(string(&world.answers)?);
    Some(out)
}

/// The trace's length and the byte that fills it.
fn trace(trace: &[u8]) -> Option<[u8; 3]> {
    let fill = trace.first().copied().unwrap_or(0);
    let [high, low] = length(trace)?;
    let filled = trace.iter().all(|&byte| byte == fill);
    filled.then_some([high, low, fill])
}

/// The cases that stand in these bytes.
pub fn decode(mut bytes: &[u8]) -> Option<Vec<Asked>> {
    let mut cases = Vec::new();
    while !bytes.is_empty() {
        let length = usize::from(number(&mut bytes)?);
        cases.push(decode_fields(bytes.split_off(..length)?)?);
    }
    Some(cases)
}

fn decode_fields(mut fields: &[u8]) -> Option<Asked> {
    let [job] = take(&mut fields)?;
    if job == HEAD {
        return decode_head(fields).map(Asked::Head);
    }
    decode_job(job, fields).map(Asked::Job)
}

fn decode_head(mut fields: &[u8]) -> Option<HeadCase> {
    Some(HeadCase {
        place: number(&mut fields)?,
        envelope: fields.to_vec(),
    })
}

fn decode_job(job: u8, mut fields: &[u8]) -> Option<Case> {
    let rest = &mut fields;
    Some(match job {
        CHECK => Case::Check {
            envelope: rest.to_vec(),
        },
        NEWER => Case::Newer {
            first: decode_string(rest)?,
            second: rest.to_vec(),
        },
        TRANSLATE => Case::Translate {
            group: decode_group(rest)?,
            room: vec![Case::ROOM_FILL; number(rest)?.into()],
            envelope: rest.to_vec(),
        },
        RUN => Case::Run {
            group: decode_group(rest)?,
            world: decode_lent(rest)?,
            envelope: rest.to_vec(),
        },
        RUN_PROGRAM => {
            let [0] = take(rest)? else { return None };
            Case::RunProgram {
                world: decode_lent(rest)?,
                program: rest.to_vec(),
            }
        }
        _ => return None,
    })
}

fn decode_group(rest: &mut &[u8]) -> Option<Group> {
    match take(rest)? {
        [0] => Some(Group::Install),
        [1] => Some(Group::Boot),
        _ => None,
    }
}

fn decode_lent(rest: &mut &[u8]) -> Option<World> {
    let [verdict] = take(rest)?;
    let device = Device {
        vendor: take(rest)?,
        class: take(rest)?,
        number: u32::from_be_bytes(take(rest)?),
        event_open: take(rest)? == [1],
    };
    let length = number(rest)?;
    let [fill] = take(rest)?;
    Some(World {
        verdict: verdict == 1,
        device,
        trace: vec![fill; length.into()],
        slots: decode_string(rest)?,
        answers: decode_string(rest)?,
    })
}

fn decode_string(rest: &mut &[u8]) -> Option<Vec<u8>> {
    let length = usize::from(number(rest)?);
    rest.split_off(..length).map(<[u8]>::to_vec)
}

fn number(rest: &mut &[u8]) -> Option<u16> {
    take(rest).map(u16::from_be_bytes)
}

fn take<const N: usize>(rest: &mut &[u8]) -> Option<[u8; N]> {
    let taken = rest.split_off(..N)?;
    taken.try_into().ok()
}
