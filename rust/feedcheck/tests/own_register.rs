//! What `examples/own_register.rs` says of a supplier's job with the farm's own register in place of its part 1.

#[path = "../examples/own_register.rs"]
#[allow(dead_code)]
mod program;

use feedcheck::{Outcome, Refusal, Tally, TABLE_NUMBERS};
use std::path::Path;

const EXAMPLES: &str = concat!(env!("CARGO_MANIFEST_DIR"), "/../../examples");

fn example(name: &str) -> Vec<u8> {
    std::fs::read(Path::new(EXAMPLES).join(name)).unwrap()
}

/// The files of `examples` with this ending.
fn examples(ending: &str) -> Vec<Vec<u8>> {
    let names = std::fs::read_dir(EXAMPLES).unwrap().map(|entry| entry.unwrap().file_name().into_string().unwrap());
    names.filter(|name| name.ends_with(ending)).map(|name| example(&name)).collect()
}

/// Where part 1 of a job ends, if it is right.
fn part_1(job: &[u8]) -> Result<usize, Refusal> {
    match feedcheck::register(job) {
        Ok(_) => Ok(job.len()),
        Err(refusal) if refusal.number == Refusal::PAST_END => Ok(refusal.position),
        Err(refusal) => Err(refusal),
    }
}

/// What the job call says of the farm's register and the other parts of the job, in one file, with positions moved.
fn expected(own: &[u8], job: &[u8]) -> Result<Outcome, Refusal> {
    let end = part_1(job)?;
    let whole = [own, &job[end..]].concat();
    feedcheck::job(&whole, &mut vec![0; TABLE_NUMBERS], 0, &mut Tally::default()).map_err(|refusal| {
        assert!(refusal.part > 1 && refusal.position >= own.len());
        Refusal { position: refusal.position - own.len() + end, ..refusal }
    })
}

fn refused(number: u8, part: u8, position: usize) -> Result<Outcome, Refusal> {
    Err(Refusal { number, part, position })
}

/// Each job of the examples with each register, and with part 1 of each other job.
#[test]
fn examples_as_the_job_call_says() {
    let (jobs, mut owns) = (examples(".job"), examples(".register"));
    owns.extend(jobs.iter().filter_map(|job| part_1(job).ok().map(|end| job[..end].to_vec())));
    owns.retain(|own| feedcheck::register(own).is_ok());
    owns.sort();
    owns.dedup();
    let (mut accepted, mut longer, mut shorter) = (0, 0, 0);
    for own in &owns {
        for job in &jobs {
            let outcome = program::check(own, job);
            assert_eq!(outcome, expected(own, job));
            accepted += u32::from(outcome.is_ok());
            if let Ok(end) = part_1(job) {
                longer += u32::from(own.len() < end);
                shorter += u32::from(own.len() > end);
            }
        }
    }
    assert!(accepted > 0 && longer > 0 && shorter > 0);
}

#[test]
fn accepted() {
    let own = example("example.register");
    for name in ["example.job", "example.square.job", "days.usual.job"] {
        assert_eq!(program::check(&own, &example(name)), Ok(Outcome { bound: 0, cost: 0, gap: 0 }));
    }
    assert!(!example("days.usual.job").starts_with(&own));
}

/// The part that is refused, and the position in the supplier's job, whose part 1 has 48 bytes.
#[test]
fn each_part() {
    let (own, job) = (example("example.register"), example("example.job"));
    let with = |at: usize, byte: u8| {
        let mut job = job.clone();
        job[at] = byte;
        program::check(&own, &job)
    };
    assert_eq!(with(5, 0x7E), refused(Refusal::NO_COMMAND, 1, 5));
    assert_eq!(program::check(&own, &job[..47]), refused(Refusal::CUT_SHORT, 1, 47));
    assert_eq!(program::check(&own, &[]), refused(Refusal::CUT_SHORT, 1, 0));
    assert_eq!(program::check(&own, &job[..48]), refused(Refusal::CUT_SHORT, 2, 48));
    assert_eq!(with(55, 9), refused(Refusal::NOT_THERE, 2, 54));
    assert_eq!(program::check(&own, &job[..64]), refused(Refusal::CUT_SHORT, 3, 64));
    assert_eq!(with(69, 1), refused(Refusal::FALLS_SHORT, 3, 107));
    assert_eq!(program::check(&own, &job[..108]), refused(Refusal::CUT_SHORT, 4, 108));
    assert_eq!(with(109, 8), refused(Refusal::NOT_THERE, 4, 108));
    assert_eq!(program::check(&own, &[&job[..], &[0]].concat()), refused(Refusal::PAST_END, 4, 113));
}

/// The farm's register has other costs, or a row more, than the part 1 that the supplier sent.
#[test]
fn another_part_1() {
    let (own, job) = (example("example.register"), example("example.job"));
    let mut dearer = own.clone();
    dearer[34..38].copy_from_slice(&4i32.to_le_bytes());
    assert_eq!(program::check(&dearer, &job), refused(Refusal::FALLS_SHORT, 3, 107));

    let mut row = [0; 35];
    row[..5].copy_from_slice(&[0x14, 1, 0, 1, 1]);
    let once = [&own[..20], &row, &own[20..]].concat();
    assert_eq!(program::check(&once, &job), refused(Refusal::MISFIT, 4, 108));
    // The other way round: the supplier's part 1 is the longer one.
    let supplier = [&once[..], &job[48..]].concat();
    assert_eq!(program::check(&own, &supplier), Ok(Outcome { bound: 0, cost: 0, gap: 0 }));
    let mut higher = supplier;
    higher[35 + 69] = 1;
    assert_eq!(program::check(&own, &higher), refused(Refusal::FALLS_SHORT, 3, 35 + 107));
}

/// The farm's register has a range where the part 1 that the supplier sent has none, and the other way round: the parts stand in
/// another order. Where both have one they stand in the same.
#[test]
fn ranges() {
    let (own, job) = (example("example.register"), example("example.job"));
    let range = [&[0x16, 1, 0, 0, 0][..], &(-6i32).to_le_bytes(), &(-6i32).to_le_bytes()].concat();
    let ranged = [&own[..20], &range, &own[29..]].concat();
    assert_eq!(program::check(&ranged, &job), refused(Refusal::NO_COMMAND, 4, 64));
    let supplier = [&ranged[..], &job[48..64], &job[108..], &job[64..108]].concat();
    assert_eq!(program::check(&ranged, &supplier), Ok(Outcome { bound: 0, cost: 0, gap: 0 }));
    assert_eq!(program::check(&own, &supplier), refused(Refusal::NO_COMMAND, 3, 68));
    assert_eq!(program::check(&ranged, &supplier[..73]), refused(Refusal::CUT_SHORT, 3, 73));
    assert_eq!(program::check(&ranged, &[&supplier[..], &[0]].concat()), refused(Refusal::PAST_END, 3, 117));
    let mut higher = supplier;
    higher[73 + 5] = 1;
    assert_eq!(program::check(&ranged, &higher), refused(Refusal::FALLS_SHORT, 3, 116));
    higher[69] = 8;
    assert_eq!(program::check(&ranged, &higher), refused(Refusal::NOT_THERE, 4, 68));
}
