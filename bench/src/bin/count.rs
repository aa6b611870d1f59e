//! Counts the instructions of check, boot and translation, by the library and
//! by the reading: `count`. Each is called once under valgrind's callgrind, by
//! this program as `count one SUBJECT FUNCTION`.

use std::env;
use std::hint::black_box;
use std::io;
use std::process::{Command, ExitCode};

use bench::answer::{CheckAnswer, Jobs, Lent, RunAnswer};
use bench::gen::World;
use bench::jobs::Reading;
use bench::ours::Ours;
use bench::reading::{limits, Group};
use bench::subjects::{print_table, subjects, Subject};

/// What is counted, and the function in which it is done.
const COLUMNS: [(&str, &str); 7] = [
    ("our check", "pitvorgas_check"),
    ("our boot by envelope", "pitvorgas_run"),
    ("our boot by program", "pitvorgas_run_program"),
    ("our translation", "pitvorgas_translate"),
    ("reading's check", "reading_check"),
    ("reading's boot by envelope", "reading_run"),
    ("reading's boot by program", "reading_run_program"),
];

fn main() -> ExitCode {
    let arguments: Vec<String> = env::args().skip(1).collect();
    let done = match &arguments[..] {
        [] => print_counts(&subjects()),
        [one, subject, function] if one == "one" => call(subject, function),
        _ => Err("usage: count".into()),
    };
    match done {
        Ok(()) => ExitCode::SUCCESS,
        Err(error) => {
            eprintln!("{error}");
            ExitCode::from(2)
        }
    }
}

fn print_counts(subjects: &[Subject]) -> Result<(), String> {
    let row = |subject| COLUMNS.map(|(_, function)| count(subject, function));
    let counts: Result<Vec<u64>, String> = (0..subjects.len()).flat_map(row).collect();
    let counts = counts?;
    let titles = COLUMNS.map(|(title, _)| title);
    print_table(subjects, &titles, |row, column| {
        thousands(counts[COLUMNS.len() * row + column])
    });
    println!();
    println!("Instructions of one call, counted by callgrind inside the functions for C, and for");
    println!("the reading inside functions that fill the same answer structs.");
    Ok(())
}

/// How many instructions one call of a function takes.
fn count(subject: usize, function: &str) -> Result<u64, String> {
    let itself = env::current_exe().map_err(|error| error.to_string())?;
    let output = Command::new("valgrind")
        .args(["--tool=callgrind", "--callgrind-out-file=/dev/null"])
        .arg(format!("--toggle-collect={function}"))
        .arg(itself)
        .args(["one", &subject.to_string(), function])
        .output()
        .map_err(|error| match error.kind() {
            io::ErrorKind::NotFound => "count needs valgrind, which is a Debian package".into(),
            _ => error.to_string(),
        })?;
    let report = String::from_utf8_lossy(&output.stderr);
    let counted = collected(&report).filter(|&count| output.status.success() && count > 0);
    counted.ok_or_else(|| format!("valgrind counted nothing in {function}:\n{report}"))
}

/// The number in callgrind's line `Collected : N`.
fn collected(report: &str) -> Option<u64> {
    let (_, after) = report.split_once("Collected : ")?;
    after.lines().next()?.parse().ok()
}

fn thousands(number: u64) -> String {
    match number {
        0..=999 => number.to_string(),
        _ => format!("{},{:03}", thousands(number / 1000), number % 1000),
    }
}

/// Calls a function once.
fn call(subject: &str, function: &str) -> Result<(), String> {
    let subjects = subjects();
    let number: Option<usize> = subject.parse().ok();
    let subject = number.and_then(|number| subjects.get(number));
    let Subject {
        envelope,
        program,
        world,
        ..
    } = subject.ok_or("no such subject")?;
    let mut lent = Lent::from(world);
    let mut room = vec![0; limits::PROGRAM_BYTES];
    match function {
        "pitvorgas_check" => drop(black_box(Ours.check(envelope))),
        "pitvorgas_run" => drop(black_box(Ours.run(envelope, Group::Boot, world, &mut lent))),
        "pitvorgas_run_program" => drop(black_box(Ours.run_program(program, world, &mut lent))),
        "pitvorgas_translate" => drop(black_box(Ours.translate(envelope, Group::Boot, &mut room))),
        "reading_check" => drop(black_box(reading_check(envelope))),
        "reading_run" => drop(black_box(reading_run(envelope, world, &mut lent))),
        "reading_run_program" => drop(black_box(reading_run_program(program, world, &mut lent))),
        _ => return Err("no such function".into()),
    }
    Ok(())
}

#[no_mangle]
#[inline(never)]
fn reading_check(envelope: &[u8]) -> CheckAnswer {
    Reading.check(envelope)
}

#[no_mangle]
#[inline(never)]
fn reading_run(envelope: &[u8], world: &World, lent: &mut Lent) -> RunAnswer {
    Reading.run(envelope, Group::Boot, world, lent)
}

#[no_mangle]
#[inline(never)]
fn reading_run_program(program: &[u8], world: &World, lent: &mut Lent) -> RunAnswer {
    Reading.run_program(program, world, lent)
}
