//! Answers the written cases of a document with the reading:
//! `vectors 01 CASES ANSWERS` or `vectors 02 CASES ANSWERS`.

use std::env;
use std::path::Path;
use std::process::ExitCode;

use bench::vectors::{answer, Form, Written};

const SHOWN: usize = 5;

fn main() -> ExitCode {
    let words: Vec<String> = env::args().skip(1).collect();
    let [document, cases, answers] = &words[..] else {
        return usage();
    };
    let form = match document.as_str() {
        "01" => Form::Document01,
        "02" => Form::Document02,
        _ => return usage(),
    };
    match Written::read(Path::new(cases), Path::new(answers)) {
        Ok(written) => compare(&written, form),
        Err(error) => {
            eprintln!("{error}");
            ExitCode::from(2)
        }
    }
}

fn usage() -> ExitCode {
    eprintln!("usage: vectors 01|02 CASES ANSWERS");
    ExitCode::from(2)
}

fn compare(written: &Written, form: Form) -> ExitCode {
    let pairs = match written.pairs() {
        Ok(pairs) => pairs,
        Err(error) => {
            eprintln!("{error}");
            return ExitCode::from(2);
        }
    };
    let mut differences = 0;
    for (number, (case, written)) in (1..).zip(&pairs) {
        let found = answer(case, form).unwrap_or_else(|| "case not understood".into());
        if found != form.shown(written) {
            differences += 1;
            if differences <= SHOWN {
                println!("case {number}: {case}\n  written: {written}\n  reading: {found}");
            }
        }
    }
    println!(
        "{} cases, {} agreed",
        pairs.len(),
        pairs.len() - differences
    );
    ExitCode::from(u8::from(differences > 0))
}
