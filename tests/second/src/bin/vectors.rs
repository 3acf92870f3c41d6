//! `vectors SEED OUTDIR` writes the stored vectors of every program: into the
//! folder of its name in OUTDIR the files stdin, stdout, which is what it has to
//! print, and VECTORS.txt, how they were made.

use second::vectors;
use std::fs;
use std::io;
use std::path::Path;
use std::process::ExitCode;

const USAGE: &str = "usage: vectors SEED OUTDIR";

fn main() -> ExitCode {
    let words: Vec<String> = std::env::args().skip(1).collect();
    match arguments(&words) {
        None => fail(USAGE),
        Some((seed, folder)) => match write(seed, folder) {
            Ok(()) => ExitCode::SUCCESS,
            Err(error) => fail(&format!("cannot write to {folder}: {error}")),
        },
    }
}

fn arguments(words: &[String]) -> Option<(u64, &str)> {
    match words {
        [seed, folder] => Some((seed.parse().ok()?, folder)),
        _ => None,
    }
}

fn fail(message: &str) -> ExitCode {
    eprintln!("{message}");
    ExitCode::FAILURE
}

fn write(seed: u64, folder: &str) -> io::Result<()> {
    for stored in vectors::stored(seed, folder) {
        let path = Path::new(folder).join(stored.program);
        fs::create_dir_all(&path)?;
        fs::write(path.join("stdin"), stored.stdin)?;
        fs::write(path.join("stdout"), stored.stdout)?;
        fs::write(path.join("VECTORS.txt"), stored.note)?;
    }
    Ok(())
}
