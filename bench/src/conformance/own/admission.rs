//! What is tested before a run, by envelope and by program.

use super::scene::{manifest, nil, program, ran, sample, setting, SAMPLE_ENDS};
use super::setting::Setting;
use super::Own;
use crate::gen::encode::encode;
use crate::gen::model::{self, Manifest};
use crate::gen::{Case, Slot};
use crate::reading::Group;
use crate::tally::Reached;

pub fn cases() -> Vec<Own> {
    [
        verdict(),
        open_event(),
        numbers(),
        slot_counts(),
        slot_faults(),
        slot_sizes(),
        ragged_slots(),
        missing_slots(),
        answers(),
        traces(),
        order(),
    ]
    .concat()
}

/// Runs of the sample in a changed setting, for both groups; nothing wanted
/// stands for the sample's own end.
fn both(shows: &'static str, refusal: Option<usize>, change: impl Fn(&mut Setting)) -> Vec<Own> {
    let groups = Group::BOTH.into_iter().zip(SAMPLE_ENDS);
    let runs = groups.flat_map(|(group, end)| {
        let wanted = refusal.map_or(Reached::End(end), Reached::Refused);
        one(shows, group, wanted, &change)
    });
    runs.collect()
}

fn one(
    shows: &'static str,
    group: Group,
    wanted: Reached,
    change: impl Fn(&mut Setting),
) -> Vec<Own> {
    let manifest = sample();
    let mut setting = setting(&manifest, group);
    change(&mut setting);
    ran(shows, &encode(&manifest), group, &setting, wanted)
}

fn verdict() -> Vec<Own> {
    both("signature verdict is no", Some(80), |setting| {
        setting.verdict = false
    })
}

fn open_event() -> Vec<Own> {
    let open = |setting: &mut Setting| setting.device.event_open = true;
    let shows = "event open";
    [
        one(shows, Group::Install, Reached::Refused(81), open),
        one(shows, Group::Boot, Reached::End(2), open),
    ]
    .concat()
}

fn numbers() -> Vec<Own> {
    let mut cases = Vec::new();
    let mut add = |shows, group, wanted, number| {
        let change = |setting: &mut Setting| setting.device.number = number;
        cases.extend(one(shows, group, wanted, change));
    };
    let number = sample().number;
    let refused = Reached::Refused(82);
    add(
        "an equal number is not new",
        Group::Install,
        refused,
        number,
    );
    add("device's number", Group::Install, refused, number + 1);
    add("device's number", Group::Install, refused, u32::MAX);
    add("device's number", Group::Install, Reached::End(0), 0);
    add("device's number", Group::Boot, refused, number - 1);
    add("device's number", Group::Boot, refused, number + 1);
    add("device's number", Group::Boot, refused, number + 256);
    cases
}

/// A slot that no component has, for so many.
fn spare(k: u8) -> Slot {
    Slot::holding(&[b's', k])
}

fn slot_counts() -> Vec<Own> {
    let fill = |count: usize| {
        move |setting: &mut Setting| {
            let more = (0..)
                .map(spare)
                .take(count.saturating_sub(setting.slots.len()));
            setting.slots.extend(more.collect::<Vec<_>>());
            setting.slots.truncate(count);
        }
    };
    [
        both("no slot", Some(85), fill(0)),
        both("8 slots", None, fill(8)),
        both("9 slots", Some(85), fill(9)),
        single_slot(),
    ]
    .concat()
}

fn single_slot() -> Vec<Own> {
    let manifest = manifest(1, vec![(model::RUN_SECTION, vec![nil(model::RUN)])]);
    let envelope = encode(&manifest);
    let groups = Group::BOTH.into_iter().zip(SAMPLE_ENDS);
    let runs = groups.flat_map(|(group, end)| {
        let setting = setting(&manifest, group);
        ran("1 slot", &envelope, group, &setting, Reached::End(end))
    });
    runs.collect()
}

/// A fault in a slot that no component uses is one too.
fn slot_faults() -> Vec<Own> {
    let named = |identifier: &[u8]| {
        let slot = Slot::holding(identifier);
        move |setting: &mut Setting| setting.slots.push(slot.clone())
    };
    let again = |setting: &mut Setting| setting.slots.push(setting.slots[0].clone());
    let other_padding = |setting: &mut Setting| {
        let mut slot = setting.slots[1].clone();
        slot.identifier[31] ^= 1;
        setting.slots.insert(0, slot);
    };
    [
        both("slot identifier of 0 bytes", Some(85), named(&[])),
        both("slot identifier of 1 byte", None, named(b"c")),
        both("slot identifier of 32 bytes", None, named(&[b's'; 32])),
        both("slot identifier of 33 bytes", Some(85), named(&[b's'; 33])),
        both("slot identifier of 33 bytes", Some(85), named(&[b's'; 255])),
        both("slot identifier twice", Some(85), again),
        both("slot identifier twice", Some(85), other_padding),
    ]
    .concat()
}

fn slot_sizes() -> Vec<Own> {
    let sized = |present: u8, capacity: u32, size: u32| {
        let slot = Slot {
            present,
            capacity,
            size,
            ..spare(0)
        };
        move |setting: &mut Setting| setting.slots.push(slot.clone())
    };
    let at = "present size at the capacity";
    let over = "present size over the capacity";
    let absent = "absent size over the capacity";
    [
        both(at, None, sized(1, 100, 100)),
        both(at, None, sized(1, 0, 0)),
        both(at, None, sized(255, u32::MAX, u32::MAX)),
        both(over, Some(85), sized(1, 99, 100)),
        both(over, Some(85), sized(1, 0xffff, 0x1_0000)),
        both(over, Some(85), sized(255, u32::MAX - 1, u32::MAX)),
        both(absent, None, sized(0, 99, 100)),
        both(absent, None, sized(0, 0, u32::MAX)),
    ]
    .concat()
}

/// Slots that are no whole number of them.
fn ragged_slots() -> Vec<Own> {
    let manifest = sample();
    let envelope = encode(&manifest);
    let mut cases = Vec::new();
    for group in Group::BOTH {
        let world = setting(&manifest, group).world();
        for length in [1, 73, 75, 147, 149] {
            let mut world = world.clone();
            world.slots.resize(length, 0);
            let by_envelope = Case::Run {
                envelope: envelope.clone(),
                group,
                world: world.clone(),
            };
            let program = program(&envelope, group);
            let by_program = Case::RunProgram { program, world };
            for case in [by_envelope, by_program] {
                let shows = "slots not a multiple of 74 bytes";
                cases.push(Own::new(shows, Reached::Refused(85), case));
            }
        }
    }
    cases
}

/// Slots are found by the whole identifier.
fn missing_slots() -> Vec<Own> {
    let shows = "a component has no slot";
    let longer = |setting: &mut Setting| setting.slots[1].length += 1;
    let shorter = |setting: &mut Setting| setting.slots[1].length -= 1;
    let other = |setting: &mut Setting| setting.slots[0].identifier[0] ^= 1;
    let one_left = |setting: &mut Setting| setting.slots.truncate(1);
    [
        both(shows, Some(83), longer),
        both(shows, Some(83), shorter),
        both(shows, Some(83), other),
        both(shows, Some(83), one_left),
        both("slots in another order", None, |setting| {
            setting.slots.reverse()
        }),
    ]
    .concat()
}

fn answers() -> Vec<Own> {
    let with = |length: usize| move |setting: &mut Setting| setting.answers = vec![0; length];
    let mut cases = Vec::new();
    for length in [0, 37, 74, 370] {
        cases.extend(both("answers a multiple of 37 bytes", None, with(length)));
    }
    for length in [1, 36, 38, 73, 75] {
        cases.extend(both(
            "answers not a multiple of 37 bytes",
            Some(86),
            with(length),
        ));
    }
    cases
}

fn traces() -> Vec<Own> {
    let with = |length: usize| move |setting: &mut Setting| setting.trace = length;
    [
        both("no trace", Some(84), with(0)),
        both("trace of 2,047 bytes", Some(84), with(2047)),
        both("trace of 2,048 bytes", None, with(2048)),
        both("trace of 2,049 bytes", None, with(2049)),
        both("trace of 65,535 bytes", None, with(65_535)),
    ]
    .concat()
}

/// The refusals of a run in the order of the tests: each time all from one on
/// are due.
fn order() -> Vec<Own> {
    const ORDER: [usize; 7] = [80, 81, 82, 85, 83, 86, 84];
    let manifest = sample();
    let mut cases = Vec::new();
    for group in Group::BOTH {
        for (from, &number) in ORDER.iter().enumerate() {
            if number == 81 && group == Group::Boot {
                continue;
            }
            let setting = faulty(&manifest, group, &ORDER[from..]);
            let wanted = Reached::Refused(number);
            cases.extend(ran(
                "order of refusals",
                &encode(&manifest),
                group,
                &setting,
                wanted,
            ));
        }
    }
    cases
}

fn faulty(manifest: &Manifest, group: Group, faults: &[usize]) -> Setting {
    let mut setting = setting(manifest, group);
    for fault in faults {
        match fault {
            80 => setting.verdict = false,
            81 => setting.device.event_open = true,
            82 => setting.device.number = manifest.number + 1,
            85 => setting.slots.push(Slot::holding(&[])),
            83 => drop(setting.slots.remove(0)),
            86 => setting.answers.push(0),
            _ => setting.trace = 0,
        }
    }
    setting
}
