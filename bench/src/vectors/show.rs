use crate::answer::{Answer, CheckAnswer, RunAnswer, TranslateAnswer};
use crate::gen::{Case, World};
use crate::hex;
use crate::reading::SLOT_BYTES;

const EVENT_BYTES: usize = 8;
const BAD_PROGRAM: usize = 97;

/// An answer as text, or what is wrong in it.
pub fn show(case: &Case, answer: &Answer) -> Result<String, &'static str> {
    match (case, answer) {
        (_, Answer::Check(answer)) => Ok(checked(answer)),
        (_, Answer::Newer(part)) => Ok(format!("({}, {}, {})", part.second, part.from, part.to)),
        (_, Answer::Translate { tested, .. }) if *tested == Some(false) => {
            Err("a translated program that is not well formed")
        }
        (Case::Translate { room: lent, .. }, Answer::Translate { answer, room, .. }) => {
            translated(lent, answer, room)
        }
        (_, Answer::Run { tested, answer, .. })
            if *tested == Some(answer.refusal == BAD_PROGRAM) =>
        {
            Err("test and run of the program disagree")
        }
        (
            Case::Run { world, .. } | Case::RunProgram { world, .. },
            Answer::Run {
                answer,
                slots,
                trace,
                ..
            },
        ) => ran(world, answer, slots, trace),
        _ => Err("answer to another job"),
    }
}

fn refused(number: usize, place: usize) -> String {
    format!("refused {number} {place}")
}

fn checked(answer: &CheckAnswer) -> String {
    if answer.refusal > 0 {
        return refused(answer.refusal, answer.place);
    }
    let spans = answer.ids.chunks(2).take(answer.components);
    let spans: Vec<String> = spans.map(|s| format!("{}-{}", s[0], s[1])).collect();
    // The first is common's sequence, which is not told.
    let sections = answer.sections.chunks(2).skip(1);
    let sections: String = sections
        .map(|span| if span[1] > 0 { '1' } else { '0' })
        .collect();
    format!("accepted {} {} {sections}", answer.number, spans.join(","))
}

fn translated(lent: &[u8], answer: &TranslateAnswer, room: &[u8]) -> Result<String, &'static str> {
    let (program, rest) = room.split_at(answer.length);
    if rest != &lent[answer.length..] {
        return Err("room altered beyond the program");
    }
    if answer.refusal > 0 {
        return Ok(refused(answer.refusal, answer.place));
    }
    Ok(format!("program {}", hex::encode(program)))
}

fn ran(
    world: &World,
    answer: &RunAnswer,
    slots: &[u8],
    trace: &[u8],
) -> Result<String, &'static str> {
    let (events, rest) = trace.split_at(EVENT_BYTES * answer.events);
    if rest != &world.trace[events.len()..] {
        return Err("trace altered beyond the events");
    }
    if answer.refusal == 0 {
        return Ok(ended(answer, slots, events));
    }
    if slots != world.slots {
        return Err("slots altered by a refusal");
    }
    Ok(refused(answer.refusal, answer.place))
}

fn ended(answer: &RunAnswer, slots: &[u8], events: &[u8]) -> String {
    let slots: Vec<String> = slots.chunks(SLOT_BYTES).map(slot).collect();
    format!(
        "end {} {} {} {} {} {} {}",
        answer.end,
        answer.place,
        answer.events,
        answer.used,
        answer.number,
        slots.join(","),
        hex::encode(events),
    )
}

fn slot(slot: &[u8]) -> String {
    let length = usize::from(slot[0]);
    format!(
        "{}:{}:{}:{}:{}",
        hex::encode(&slot[1..1 + length]),
        number(&slot[33..37]),
        slot[37],
        number(&slot[38..42]),
        hex::encode(&slot[42..]),
    )
}

fn number(bytes: &[u8]) -> u32 {
    bytes
        .iter()
        .fold(0, |number, &byte| number << 8 | u32::from(byte))
}
