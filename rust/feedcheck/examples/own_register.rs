//! Checks a supplier's job with the farm's own register in place of the job's part 1. Prints bound, cost and gap at the farm's own
//! costs, ranges, windows, rows and day's length; or the refusal, with part and position in the job. Says where the job's part 1 is
//! not byte for byte the farm's register. Exit status 0: accepted, 1: refused, 2: no answer, since the words are wrong, a file can't
//! be read, or the farm's register is itself refused.

use feedcheck::{Outcome, Refusal};
use std::path::{Path, PathBuf};
use std::process::ExitCode;

/// The job with the farm's register, which is accepted, as its part 1. Positions are those of the job as the supplier sent it.
pub fn check(own: &[u8], job: &[u8]) -> Result<Outcome, Refusal> {
    let part_2 = end_of(feedcheck::register(job), 0, job)?;
    let end = end_of(feedcheck::scheme(own, &job[part_2..]), part_2, job)?;
    let scheme = &job[part_2..end];
    if feedcheck::register(own)?.has_range() {
        plan_first(own, scheme, job, end)
    } else {
        plan_last(own, scheme, job, end)
    }
}

/// Parts 3 and 4 of a job whose register has no range. The check then looks at no plan.
fn plan_last(own: &[u8], scheme: &[u8], job: &[u8], part_3: usize) -> Result<Outcome, Refusal> {
    let mut table = vec![0; feedcheck::TABLE_NUMBERS];
    let part_4 = end_of(feedcheck::check(own, scheme, &job[part_3..], &[], &mut table), part_3, job)?;
    let cost = feedcheck::cost(own, &job[part_4..]).map_err(|refusal| in_job(refusal, part_4))?;
    // A refused answer has no bound, so the certificate is checked again without the plan behind it.
    let bound = feedcheck::check(own, scheme, &job[part_3..part_4], &[], &mut table)?;
    Ok(Outcome { bound, cost, gap: cost - bound })
}

/// Parts 4 and 3 of a job whose register has a range. The plan chooses the coefficients that the certificate is of.
fn plan_first(own: &[u8], scheme: &[u8], job: &[u8], part_4: usize) -> Result<Outcome, Refusal> {
    let mut table = vec![0; feedcheck::TABLE_NUMBERS];
    let part_3 = end_of(feedcheck::cost(own, &job[part_4..]), part_4, job)?;
    let plan = &job[part_4..part_3];
    let checked = feedcheck::check(own, scheme, &job[part_3..], plan, &mut table);
    let bound = checked.map_err(|refusal| in_job(refusal, part_3))?;
    // A refused answer has no cost, so the plan is read again without the certificate behind it.
    let cost = feedcheck::cost(own, plan)?;
    Ok(Outcome { bound, cost, gap: cost - bound })
}

/// Where a part ends that was given with all bytes behind it. One that is right is refused PAST_END at the first of them, or accepted
/// where there are none.
fn end_of<T>(answer: Result<T, Refusal>, start: usize, job: &[u8]) -> Result<usize, Refusal> {
    match answer {
        Ok(_) => Ok(job.len()),
        Err(refusal) if refusal.number == Refusal::PAST_END => Ok(start + refusal.position),
        Err(refusal) => Err(in_job(refusal, start)),
    }
}

/// A refusal of a part that starts at this position of the job.
fn in_job(refusal: Refusal, start: usize) -> Refusal {
    Refusal { position: start + refusal.position, ..refusal }
}

fn read(path: &Path) -> Result<Vec<u8>, String> {
    std::fs::read(path).map_err(|error| format!("{}: {error}", path.display()))
}

fn run() -> Result<ExitCode, String> {
    let words: Vec<PathBuf> = std::env::args_os().skip(1).map(PathBuf::from).collect();
    let [own_path, job_path] = &words[..] else {
        return Err("usage: own_register OWN.register SUPPLIER.job".into());
    };
    let (own, job) = (read(own_path)?, read(job_path)?);
    feedcheck::register(&own).map_err(|refusal| format!("{}: {refusal}", own_path.display()))?;

    // The bytes of a register say themselves where it ends, so no other register begins with the same bytes.
    if !job.starts_with(&own) {
        println!("{}: part 1 is not byte for byte {}", job_path.display(), own_path.display());
    }
    match check(&own, &job) {
        Ok(Outcome { bound, cost, gap }) => {
            println!("bound {bound}, cost {cost}, gap {gap}");
            Ok(ExitCode::SUCCESS)
        }
        Err(refusal) => {
            println!("{}: {refusal}", job_path.display());
            Ok(ExitCode::from(1))
        }
    }
}

fn main() -> ExitCode {
    run().unwrap_or_else(|message| {
        eprintln!("{message}");
        ExitCode::from(2)
    })
}
