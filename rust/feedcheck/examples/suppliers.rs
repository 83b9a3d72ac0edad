//! Counts the jobs of several suppliers in one tally. The words are a supplier's number, 0 to 15, and a file, as often as wanted.
//! Prints the refusal of each job that is refused, and at the end the counters of each supplier that has any. Exit status 0: every
//! job was accepted, 1: one was refused, 2: no answer, since the words are wrong or a file can't be read.

use std::ffi::OsString;
use std::path::Path;
use std::process::ExitCode;

const USAGE: &str = "usage: suppliers SUPPLIER FILE ..";

fn run() -> Result<ExitCode, String> {
    let words: Vec<OsString> = std::env::args_os().skip(1).collect();
    if words.is_empty() || words.len() % 2 != 0 {
        return Err(USAGE.into());
    }
    let mut table = vec![0; feedcheck::TABLE_NUMBERS];
    let mut tally = feedcheck::Tally::default();
    let mut status = ExitCode::SUCCESS;
    for pair in words.chunks_exact(2) {
        let path = Path::new(&pair[1]);
        let supplier: u8 = pair[0].to_str().and_then(|word| word.parse().ok()).ok_or(USAGE)?;
        let job = std::fs::read(path).map_err(|error| format!("{}: {error}", path.display()))?;
        if let Err(refusal) = feedcheck::job(&job, &mut table, supplier, &mut tally) {
            println!("{}: {refusal}", path.display());
            status = ExitCode::from(1);
        }
    }
    for (supplier, pair) in tally.pairs.iter().enumerate() {
        if *pair != feedcheck::Counters::default() {
            println!("supplier {supplier}: {} accepted, {} refused", pair.accepted, pair.refused);
        }
    }
    Ok(status)
}

fn main() -> ExitCode {
    run().unwrap_or_else(|message| {
        eprintln!("{message}");
        ExitCode::from(2)
    })
}
