//! Finds the cheapest plan of a register, in at most a million visits. Prints its feedings, its cost and the visits; or the refusal.
//! Exit status 0: found, 1: refused, 2: no answer, since the words are wrong or the file can't be read.

use std::path::PathBuf;
use std::process::ExitCode;

fn run() -> Result<ExitCode, String> {
    let words: Vec<PathBuf> = std::env::args_os().skip(1).map(PathBuf::from).collect();
    let [path] = &words[..] else {
        return Err("usage: search FILE".into());
    };
    let bytes = std::fs::read(path).map_err(|error| format!("{}: {error}", path.display()))?;

    let answer = feedcheck::search(&bytes, 1_000_000).and_then(|found| Ok((found, feedcheck::register(&bytes)?)));
    match answer {
        Ok((found, register)) => {
            for i in (0..register.choices).filter(|i| found.plan >> i & 1 == 1) {
                println!("tank {} at minute {}", register.tanks[i], register.minutes[i]);
            }
            println!("cost {}, found in {} visits", found.cost, found.visits);
            Ok(ExitCode::SUCCESS)
        }
        Err(refusal) => {
            println!("{}: {refusal}", path.display());
            Ok(ExitCode::from(1))
        }
    }
}

fn main() -> ExitCode {
    run().unwrap_or_else(|message| {
        eprintln!("{message}");
        ExitCode::from(2)
    })
}
