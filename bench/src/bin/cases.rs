//! Writes the cases and answers of the program `conformance`, and tells what
//! they cover: `cases VECTORS STAGES OUT`, with the folders of the vectors of
//! document 01 and of document 02.

use std::env;
use std::fs;
use std::io;
use std::path::Path;
use std::process::ExitCode;

use bench::conformance::{Collection, Origin};
use bench::vectors::Written;

/// The stage of document 02 that holds.
const STAGE: u32 = 1;

fn main() -> ExitCode {
    let paths: Vec<String> = env::args().skip(1).collect();
    let [vectors, stages, out] = &paths[..] else {
        eprintln!("usage: cases VECTORS STAGES OUT");
        return ExitCode::from(2);
    };
    match make(Path::new(vectors), Path::new(stages), Path::new(out)) {
        Ok(missing) => {
            missing.iter().for_each(|what| eprintln!("missing: {what}"));
            ExitCode::from(u8::from(!missing.is_empty()))
        }
        Err(error) => {
            eprintln!("{error}");
            ExitCode::from(2)
        }
    }
}

/// Writes both files, and gives what is missing in them.
fn make(vectors: &Path, stages: &Path, out: &Path) -> Result<Vec<String>, String> {
    let read = |folder: &Path, ending: &str| {
        let [cases, answers] =
            ["cases", "answers"].map(|name| folder.join(name.to_owned() + ending));
        Written::read(&cases, &answers).map_err(describe)
    };
    let stage = read(stages, &format!(".{STAGE}.txt.gz"))?;
    let older = read(vectors, ".txt")?;
    let collection = Collection::with_vectors(&stage, &older)?;
    collection.read_back()?;
    fs::write(out.join("stdin"), &collection.stdin).map_err(describe)?;
    fs::write(out.join("stdout"), &collection.stdout).map_err(describe)?;
    print_summary(&collection);
    Ok(collection.coverage.missing())
}

fn describe(error: io::Error) -> String {
    error.to_string()
}

fn print_summary(collection: &Collection) {
    let count = |origin| collection.count(origin);
    println!("{} vectors of stage {STAGE}", count(Origin::Stage));
    println!(
        "{} vectors of document 01, and {} with another answer now",
        count(Origin::Older),
        count(Origin::Moved)
    );
    println!("{} cases over the examples of 004", count(Origin::Examples));
    println!("{} cases of the bench sheet", count(Origin::Sheet));
    println!("{} cases of our own", count(Origin::Own));
    println!(
        "stdin {} bytes, stdout {} bytes, {} lines\n",
        collection.stdin.len(),
        collection.stdout.len(),
        collection.stdout.lines().count(),
    );
    print!("{}", collection.coverage);
}
