use super::check::check;
use super::command::{Alternatives, Argument, Command, Sequence};
use super::machine::{Header, Inputs, Machine, Stop};
use super::program::{Program, JUMP, UNCAUGHT};
use super::refusal::{Fault, Refusal};
use super::{Device, Group, Outcome};

/// Runs an envelope for a group.
pub fn run(
    envelope: &[u8],
    group: Group,
    verdict: bool,
    device: &Device,
    slots: &mut [u8],
    answers: &[u8],
    trace: &mut [u8],
) -> Result<Outcome, Refusal> {
    let manifest = check(envelope)?;
    let header = Header {
        group,
        number: manifest.number,
        components: manifest.components.clone(),
    };
    let inputs = Inputs {
        verdict,
        device,
        slots,
        answers,
        trace,
    };
    let mut machine = Machine::new(header, inputs)?;
    let result = manifest
        .sequences(group)
        .try_for_each(|sequence| run_sequence(&mut machine, sequence, 0, &mut false));
    Ok(machine.outcome(result))
}

/// Runs a program.
pub fn run_program(
    program: &[u8],
    verdict: bool,
    device: &Device,
    slots: &mut [u8],
    answers: &[u8],
    trace: &mut [u8],
) -> Result<Outcome, Refusal> {
    let program = Program::read(program).ok_or(Fault::BadProgram.at(0))?;
    let inputs = Inputs {
        verdict,
        device,
        slots,
        answers,
        trace,
    };
    let mut machine = Machine::new(program.header.clone(), inputs)?;
    let result = run_records(&mut machine, &program);
    Ok(machine.outcome(result))
}

fn run_sequence<'a>(
    machine: &mut Machine<'a>,
    sequence: Sequence<'a>,
    mut index: usize,
    coerce: &mut bool,
) -> Result<(), Stop> {
    for command in sequence {
        match &command.argument {
            Argument::Index(new) => index = *new,
            Argument::Parameters(new) => *coerce = new.coerce.unwrap_or(*coerce),
            _ => {}
        }
        run_command(machine, command, index)?;
    }
    Ok(())
}

fn run_command<'a>(
    machine: &mut Machine<'a>,
    command: Command<'a>,
    index: usize,
) -> Result<(), Stop> {
    match command.argument {
        Argument::Sequence(inner) => {
            let mut coerce = false;
            match run_sequence(machine, inner, index, &mut coerce) {
                Err(Stop::ConditionFailed) if coerce => Ok(()),
                result => result,
            }
        }
        Argument::Alternatives(alternatives) => try_each(machine, alternatives, index),
        argument => machine.perform(command.code, index, command.place, argument),
    }
}

fn try_each<'a>(
    machine: &mut Machine<'a>,
    alternatives: Alternatives<'a>,
    index: usize,
) -> Result<(), Stop> {
    for alternative in alternatives {
        match run_sequence(machine, alternative, index, &mut false) {
            Err(Stop::ConditionFailed) => {}
            result => return result,
        }
    }
    Err(Stop::ConditionFailed)
}

fn run_records<'a>(machine: &mut Machine<'a>, program: &Program<'a>) -> Result<(), Stop> {
    let mut next = 0;
    for (number, record) in program.records().enumerate() {
        if number < next {
            continue;
        }
        if record.code == JUMP {
            next = usize::from(record.target);
        } else if let Some((code, shape)) = record.command() {
            let argument = record.argument(shape);
            match machine.perform(code, record.component, record.place, argument) {
                Err(Stop::ConditionFailed) if record.target != UNCAUGHT => {
                    next = usize::from(record.target);
                }
                result => result?,
            }
        }
    }
    Ok(())
}
