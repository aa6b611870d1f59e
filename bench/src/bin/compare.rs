//! Holds the library against the reading: `compare N SEED`.

use std::env;
use std::process::ExitCode;

use bench::answer::{answer, Answer};
use bench::gen::{Case, Generator};
use bench::hex;
use bench::jobs::Reading;
use bench::ours::Ours;
use bench::tally::Tally;

const SHOWN: u64 = 3;
const PROGRESS: u64 = 250_000;

fn main() -> ExitCode {
    let numbers: Vec<u64> = env::args().skip(1).flat_map(|text| text.parse()).collect();
    let [inputs, seed] = numbers[..] else {
        eprintln!("usage: compare N SEED");
        return ExitCode::from(2);
    };
    let (tally, differences) = compare(inputs, seed);
    print!("{tally}");
    println!("{inputs} inputs, {differences} differences");
    ExitCode::from(u8::from(differences > 0))
}

fn compare(inputs: u64, seed: u64) -> (Tally, u64) {
    let mut tally = Tally::default();
    let mut differences = 0;
    for (done, case) in (1..=inputs).zip(Generator::new(seed)) {
        let read = answer(&Reading, &case);
        let ours = answer(&Ours, &case);
        tally.add(case.job(), &read);
        if read != ours {
            differences += 1;
            if differences <= SHOWN {
                println!("input {done}: {}", show_case(&case));
                println!("  ours:    {}", show_answer(&ours));
                println!("  reading: {}", show_answer(&read));
                println!("  {}", lent_difference(&ours, &read));
            }
        }
        if done % PROGRESS == 0 {
            eprintln!("{done} inputs, {differences} differences so far");
        }
    }
    (tally, differences)
}

fn show_case(case: &Case) -> String {
    match case {
        Case::Check { envelope } => format!("check {}", hex::encode(envelope)),
        Case::Newer { first, second } => {
            format!("newer {} {}", hex::encode(first), hex::encode(second))
        }
        Case::Translate {
            envelope,
            group,
            room,
        } => format!(
            "translate {} {group:?} room {}",
            hex::encode(envelope),
            hex::encode(room)
        ),
        Case::Run {
            envelope,
            group,
            world,
        } => format!("run {} {group:?} {world}", hex::encode(envelope)),
        Case::RunProgram { program, world } => {
            format!("program {} {world}", hex::encode(program))
        }
    }
}

fn show_answer(answer: &Answer) -> String {
    let mut shown = match answer {
        Answer::Check(answer) => format!("{answer:?}"),
        Answer::Newer(answer) => format!("{answer:?}"),
        Answer::Translate { tested, answer, .. } => format!("{answer:?} tested {tested:?}"),
        Answer::Run { tested, answer, .. } => format!("{answer:?} tested {tested:?}"),
    };
    for (name, bytes) in answer.lent() {
        shown += &format!(" {name} {}", hex::encode(bytes));
    }
    shown
}

/// Where the lent bytes first differ.
fn lent_difference(ours: &Answer, read: &Answer) -> String {
    for ((name, one), (_, other)) in ours.lent().into_iter().zip(read.lent()) {
        if let Some(at) = one.iter().zip(other).position(|(a, b)| a != b) {
            return format!("{name} differs from byte {at} on");
        }
    }
    "every lent byte is the same".into()
}
