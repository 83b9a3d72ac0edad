//! Checks a job with the register that it brings. Prints its bound, cost and gap, the lines of the farm and what its supplier may
//! read; or its refusal. Exit status 0: accepted, 1: refused, 2: no answer, since the words are wrong or the file can't be read.

use std::path::PathBuf;
use std::process::ExitCode;

fn run() -> Result<ExitCode, String> {
    let words: Vec<PathBuf> = std::env::args_os().skip(1).map(PathBuf::from).collect();
    let [path] = &words[..] else {
        return Err("usage: example FILE".into());
    };
    let job = std::fs::read(path).map_err(|error| format!("{}: {error}", path.display()))?;

    let mut table = vec![0; feedcheck::TABLE_NUMBERS];
    let mut tally = feedcheck::Tally::default();
    match feedcheck::job(&job, &mut table, 0, &mut tally) {
        Ok(outcome) => println!("bound {}, cost {}, gap {}", outcome.bound, outcome.cost, outcome.gap),
        Err(refusal) => {
            println!("{}: {refusal}", path.display());
            return Ok(ExitCode::from(1));
        }
    }

    let mut buffer = vec![0; feedcheck::MAX_LISTING];
    let count = feedcheck::listing(&job, &mut table, &mut buffer).map_err(|refusal| refusal.to_string())?;
    print!("for the farm:\n{}", String::from_utf8_lossy(&buffer[..count]));
    let count = feedcheck::supplier_listing(&job, &mut table, &mut buffer).map_err(|refusal| refusal.to_string())?;
    print!("for the supplier:\n{}", String::from_utf8_lossy(&buffer[..count]));
    Ok(ExitCode::SUCCESS)
}

fn main() -> ExitCode {
    run().unwrap_or_else(|message| {
        eprintln!("{message}");
        ExitCode::from(2)
    })
}
