use std::ops::Range;

use super::*;
use crate::gen::{Case, Generator, World};
use crate::hex;
use crate::subjects::E;

const BOOT_PROGRAM: &str = "5350fe01000000010100045350fd0b8245466c61736843003401\
    535013000021ffff00280b2000112233445566778899aabbccddeeff0123456789abcdeffedcba9876543210\
    0c04000087d053500c00004dffff000053500300004fffff0000535017000051ffff0000";
const IDENTIFIER: Range<usize> = 18..29;
const DIGEST: Range<usize> = 38..70;

fn e() -> Vec<u8> {
    hex::decode(E).expect("hex")
}

fn changed(at: usize, byte: u8) -> Vec<u8> {
    let mut envelope = e();
    envelope[at] = byte;
    envelope
}

fn refusal(envelope: &[u8]) -> Option<(u8, usize)> {
    let refusal = check(envelope).err()?;
    Some((refusal.number, refusal.place))
}

fn device(number: u32) -> Device {
    Device {
        vendor: [0; 16],
        class: [0; 16],
        number,
        event_open: false,
    }
}

/// A slot for the component of E, with its image in it.
fn slot() -> Vec<u8> {
    let mut slot = vec![11];
    slot.extend(&e()[IDENTIFIER]);
    slot.resize(33, 0xee);
    slot.extend([0xff; 4]);
    slot.push(1);
    slot.extend(34_768u32.to_be_bytes());
    slot.extend(&e()[DIGEST]);
    slot
}

fn run_e(group: Group, number: u32, slots: &mut [u8]) -> (Result<Outcome, Refusal>, Vec<u8>) {
    let mut trace = vec![0xaa; limits::TRACE_BYTES];
    let result = run(&e(), group, true, &device(number), slots, &[], &mut trace);
    (result, trace)
}

#[test]
fn boot_program_of_e() {
    let program = hex::decode(BOOT_PROGRAM).expect("hex");
    assert_eq!(program.len(), 106);
    assert_eq!(translate(&e(), Group::Boot, 106), Ok(program));
    let refusal = Refusal {
        number: 96,
        place: 0,
    };
    assert_eq!(translate(&e(), Group::Boot, 105), Err(refusal));
}

#[test]
fn boot_of_e_starts() {
    let (result, trace) = run_e(Group::Boot, 1, &mut slot());
    let outcome = result.expect("admitted");
    assert_eq!((outcome.end, outcome.place, outcome.events), (2, 81, 4));
    let events = "535413000021000053540c00004d000053540300004f00005354170000510000";
    let events = hex::decode(events).expect("hex");
    assert_eq!(trace[..32], events);
    assert!(trace[32..].iter().all(|&byte| byte == 0xaa));
}

#[test]
fn boot_of_e_with_another_digest_fails() {
    let mut slot = slot();
    slot[73] ^= 1;
    let (result, trace) = run_e(Group::Boot, 1, &mut slot);
    let outcome = result.expect("admitted");
    assert_eq!((outcome.end, outcome.place, outcome.events), (1, 79, 3));
    assert_eq!(trace[22], 1);
}

#[test]
fn install_of_e() {
    let (result, _) = run_e(Group::Install, 1, &mut slot());
    assert_eq!(result.map_err(|refusal| refusal.number), Err(82));
    let (result, _) = run_e(Group::Install, 0, &mut slot());
    let outcome = result.expect("admitted");
    assert_eq!((outcome.end, outcome.events, outcome.number), (0, 1, 1));
}

#[test]
fn refusals_of_the_bench_sheet() {
    assert_eq!(refusal(&e()), None);
    assert_eq!(refusal(&[]), Some((65, 0)));
    assert_eq!(refusal(&[0xa2]), Some((65, 1)));
    assert_eq!(refusal(&[0xa1]), Some((66, 0)));
    assert_eq!(refusal(&[e(), vec![0]].concat()), Some((65, 83)));
    assert_eq!(refusal(&changed(8, 0x02)), Some((67, 8)));
    assert_eq!(refusal(&changed(8, 0x18)), Some((65, 8)));
    assert_eq!(refusal(&changed(78, 0x01)), Some((72, 78)));
    assert_eq!(refusal(&changed(81, 0x0d)), Some((69, 81)));
    assert_eq!(refusal(&changed(81, 0x15)), Some((71, 81)));
    assert_eq!(refusal(&e()[..82]), Some((65, 4)));
}

#[test]
fn newer_of_e_and_e() {
    assert_eq!(newer(&e(), &e()), (0, 6, 83));
    assert_eq!(newer(&[], &e()), (1, 6, 83));
    assert_eq!(newer(&[], &[]), (0, 0, 0));
}

type Ran = (Result<Outcome, Refusal>, Vec<u8>, Vec<u8>);

fn by_envelope(envelope: &[u8], group: Group, world: &World) -> Ran {
    let (mut slots, mut trace) = (world.slots.clone(), world.trace.clone());
    let World {
        verdict,
        device,
        answers,
        ..
    } = world;
    let result = run(
        envelope, group, *verdict, device, &mut slots, answers, &mut trace,
    );
    (result, slots, trace)
}

fn by_program(program: &[u8], world: &World) -> Ran {
    let (mut slots, mut trace) = (world.slots.clone(), world.trace.clone());
    let World {
        verdict,
        device,
        answers,
        ..
    } = world;
    let result = run_program(program, *verdict, device, &mut slots, answers, &mut trace);
    (result, slots, trace)
}

#[test]
fn programs_run_like_their_envelopes() {
    let mut compared = 0;
    for case in Generator::new(3).take(100_000) {
        let Case::Run {
            envelope, world, ..
        } = case
        else {
            continue;
        };
        for group in Group::BOTH {
            if let Ok(program) = translate(&envelope, group, usize::MAX) {
                let ran = by_envelope(&envelope, group, &world);
                assert_eq!(
                    ran,
                    by_program(&program, &world),
                    "{}",
                    hex::encode(&envelope)
                );
                compared += 1;
            }
        }
    }
    assert!(compared > 20_000, "{compared}");
}
