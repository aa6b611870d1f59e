//! Times check and boot, by the library and by the reading, as ratios to the
//! library's check of E.

use std::hint::black_box;
use std::time::{Duration, Instant};

use bench::answer::{Jobs, Lent, RunAnswer};
use bench::jobs::Reading;
use bench::ours::Ours;
use bench::reading::Group;
use bench::subjects::{print_table, subjects, Subject};

const ROUNDS: usize = 41;
const SAMPLE: Duration = Duration::from_millis(2);
const COLUMNS: [&str; 6] = [
    "our check",
    "our boot by envelope",
    "our boot by program",
    "reading's check",
    "reading's boot by envelope",
    "reading's boot by program",
];

/// Ratios of two columns, by their numbers.
const RATIOS: [(&str, usize, usize); 3] = [
    ("our boot by envelope / by program", 1, 2),
    ("boot by program, ours / reading's", 2, 5),
    ("boot by envelope, ours / reading's", 1, 4),
];

/// Something that is done a number of times in a row.
type Work<'a> = Box<dyn FnMut(u32) + 'a>;

struct Measurement<'a> {
    work: Work<'a>,
    repeats: u32,
    samples: Vec<f64>,
}

impl<'a> Measurement<'a> {
    fn new(mut work: Work<'a>) -> Self {
        let mut repeats = 1;
        while elapsed(&mut work, repeats) < SAMPLE {
            repeats *= 2;
        }
        Measurement {
            work,
            repeats,
            samples: Vec::with_capacity(ROUNDS),
        }
    }

    fn sample(&mut self) {
        let time = elapsed(&mut self.work, self.repeats);
        self.samples
            .push(time.as_secs_f64() / f64::from(self.repeats));
    }

    fn median(&self) -> f64 {
        let mut sorted = self.samples.clone();
        sorted.sort_by(f64::total_cmp);
        sorted[sorted.len() / 2]
    }
}

fn elapsed(work: &mut Work, repeats: u32) -> Duration {
    let start = Instant::now();
    work(repeats);
    start.elapsed()
}

fn main() {
    let subjects = subjects();
    subjects.iter().for_each(verify);
    let mut rows: Vec<Vec<Measurement>> = subjects.iter().map(measurements).collect();
    for _ in 0..ROUNDS {
        rows.iter_mut().flatten().for_each(Measurement::sample);
    }
    print_medians(&subjects, &rows);
}

/// Both boot alike, by envelope and by program, to every byte of the trace, and
/// leave the slots.
fn verify(subject: &Subject) {
    let boots = [boots(&Ours, subject), boots(&Reading, subject)];
    let [(wanted, Lent { trace: events, .. }), _] = &boots[0];
    for (answer, lent) in boots.iter().flatten() {
        assert_eq!(answer, wanted, "{}", subject.name);
        assert_eq!(lent.trace, *events, "{}", subject.name);
        assert_eq!(lent.slots, subject.world.slots, "{}", subject.name);
    }
}

fn boots(jobs: &impl Jobs, subject: &Subject) -> [(RunAnswer, Lent); 2] {
    let world = &subject.world;
    let (mut one, mut other) = (Lent::from(world), Lent::from(world));
    let by_envelope = jobs.run(&subject.envelope, Group::Boot, world, &mut one);
    let by_program = jobs.run_program(&subject.program, world, &mut other);
    [(by_envelope, one), (by_program, other)]
}

fn measurements(subject: &Subject) -> Vec<Measurement<'_>> {
    let work = [jobs(&Ours, subject), jobs(&Reading, subject)];
    work.into_iter().flatten().map(Measurement::new).collect()
}

/// Check, boot by envelope and boot by program.
fn jobs<'a, J: Jobs>(jobs: &'a J, subject: &'a Subject) -> [Work<'a>; 3] {
    let Subject {
        envelope,
        program,
        world,
        ..
    } = subject;
    let check = move |repeats| {
        for _ in 0..repeats {
            black_box(jobs.check(black_box(envelope)));
        }
    };
    let mut lent = Lent::from(world);
    let boot = move |repeats| {
        for _ in 0..repeats {
            black_box(jobs.run(black_box(envelope), Group::Boot, world, &mut lent));
        }
    };
    let mut lent = Lent::from(world);
    let boot_program = move |repeats| {
        for _ in 0..repeats {
            black_box(jobs.run_program(black_box(program), world, &mut lent));
        }
    };
    [Box::new(check), Box::new(boot), Box::new(boot_program)]
}

fn print_medians(subjects: &[Subject], rows: &[Vec<Measurement>]) {
    let median = |row: usize, column: usize| rows[row][column].median();
    let unit = median(0, 0);
    print_table(subjects, &COLUMNS, |row, column| {
        format!("{:.2}", median(row, column) / unit)
    });
    println!();
    print_table(subjects, &RATIOS.map(|(title, ..)| title), |row, ratio| {
        let (_, over, under) = RATIOS[ratio];
        format!("{:.2}", median(row, over) / median(row, under))
    });
    println!();
    println!("Medians of {ROUNDS} interleaved rounds, as ratios to our check of E and of boots.");
    println!("No buffer is cleared or copied between runs, so no such work is measured:");
    println!("a boot of these envelopes leaves each slot as it was and writes the same");
    println!("events over those of the run before. Both sides fill the same answer structs.");
}
