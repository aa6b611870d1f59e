//! Writes the envelopes that are measured, their programs for boot, and the
//! slots that a boot of each is given, as files: `envelopes OUT`.

use std::env;
use std::fs;
use std::io;
use std::path::Path;
use std::process::ExitCode;

use bench::subjects::subjects;

fn main() -> ExitCode {
    let words: Vec<String> = env::args().skip(1).collect();
    let [out] = &words[..] else {
        eprintln!("usage: envelopes OUT");
        return ExitCode::from(2);
    };
    match write(Path::new(out)) {
        Ok(()) => ExitCode::SUCCESS,
        Err(error) => {
            eprintln!("{error}");
            ExitCode::from(2)
        }
    }
}

fn write(out: &Path) -> io::Result<()> {
    for (i, subject) in subjects().iter().enumerate() {
        fs::write(out.join(format!("{i}.envelope")), &subject.envelope)?;
        fs::write(out.join(format!("{i}.program")), &subject.program)?;
        fs::write(out.join("slots"), &subject.world.slots)?;
    }
    Ok(())
}
