//! Times the search of the proved library and of the reference on the same bytes: nanoseconds a visit on generated registers of
//! 32 choices, and the time of a call on the registers of jobs.
//!
//!     search_speed RUNS FOLDER..
//!
//! The folders have the jobs, `*.job`.

use compare::generate;
use compare::random::Random;
use compare::timing::{processor_seconds, summary};
use reference::register::{self, Choice, Register, Term, USUAL_DAY};
use reference::search::Found;
use std::collections::BTreeMap;
use std::hint::black_box;

/// The visit limit on generated registers.
const LIMIT: u32 = 1_000_000;

/// The visit limit on the registers of jobs, that of the program `cheapest`.
const JOB_LIMIT: u32 = 100_000_000;

/// The choices of generated registers.
const CHOICES: usize = 32;

/// How many registers of each kind are generated.
const REGISTERS: usize = 4;

/// So many visits at least are timed together, so that reading the clock counts little.
const TIMED: u32 = 200_000;

/// The bytes of a register of 32 choices whose terms each name `degree` choices, or, where that is 16, each choice with a chance
/// of one half.
fn generated(random: &mut Random, terms: usize, degree: u32) -> Vec<u8> {
    let mut masks: Vec<u64> = Vec::new();
    while masks.len() < terms {
        let mut mask = if degree == 16 { random.next() & ((1 << CHOICES) - 1) } else { 0 };
        while degree != 16 && mask.count_ones() < degree {
            mask |= 1 << random.below(CHOICES);
        }
        if mask != 0 && !masks.contains(&mask) {
            masks.push(mask);
        }
    }
    masks.sort();
    let term = |mask| Term::known(mask, (random.within(1, 1_000_000) * random.pick(&[1, -1])) as i32);
    let terms = masks.into_iter().map(term).collect();
    let choices = (1..=CHOICES as u16).map(|tank| Choice { tank, minute: 0 }).collect();
    let register = Register { base: 0, day_length: USUAL_DAY, windows: Vec::new(), choices, rows: Vec::new(), terms };
    generate::register_commands(&register).concat()
}

/// What library and reference both answer: the search, or its refusal, 14 where its visits pass the limit and 16 where no plan fits.
fn answer(register: &[u8], limit: u32) -> Result<Found, u8> {
    let ours = feedcheck::search(register, limit);
    let theirs = reference::search(register, limit);
    let alike = match (&ours, &theirs) {
        (Ok(a), Ok(b)) => (a.plan, a.cost, a.visits) == (b.plan, b.cost, b.visits),
        (Err(a), Err(b)) => (a.number, a.part, a.position) == (b.number, b.part, b.position) && matches!(a.number, 14 | 16),
        _ => false,
    };
    assert!(alike, "{ours:?} {theirs:?}");
    theirs.map_err(|refusal| refusal.number)
}

/// Seconds of processor time of a call.
fn time<A>(calls: u32, mut call: impl FnMut() -> A) -> f64 {
    let start = processor_seconds();
    for _ in 0..calls {
        black_box(call());
    }
    (processor_seconds() - start) / calls as f64
}

/// Runs library and reference by turns: seconds of processor time of a call of each, for each run.
fn race(runs: usize, register: &[u8], limit: u32, visits: u32) -> Vec<[f64; 2]> {
    let calls = TIMED.div_ceil(visits);
    let turn = |_| [time(calls, || feedcheck::search(register, limit)), time(calls, || reference::search(register, limit))];
    (0..runs).map(turn).collect()
}

fn race_generated(runs: usize) {
    println!("registers of 32 choices, {REGISTERS} of each kind, at most {LIMIT} visits each; nanoseconds a visit, {runs} runs");
    println!(
        "{:>5}  {:>12}  {:>9}  {:>5}  {:>22}  {:>22}  {:>22}",
        "terms", "choices each", "visits", "ended", "library", "reference", "library / reference"
    );
    let mut random = Random(6);
    for terms in [8, 64, 256] {
        for degree in [2, 4, 8, 16] {
            // For each run, the time of all registers of the kind.
            let mut figures = vec![[0.0; 2]; runs];
            let (mut all_visits, mut ended) = (0, 0);
            for _ in 0..REGISTERS {
                let bytes = generated(&mut random, terms, degree);
                let found = answer(&bytes, LIMIT);
                let visits = found.map_or(LIMIT, |found| found.visits);
                for (sum, [ours, theirs]) in figures.iter_mut().zip(race(runs, &bytes, LIMIT, visits)) {
                    sum[0] += ours;
                    sum[1] += theirs;
                }
                all_visits += visits;
                ended += found.is_ok() as u32;
            }
            let [ours, theirs] = [0, 1].map(|which| figures.iter().map(move |times| times[which] * 1e9 / all_visits as f64));
            let ratios = figures.iter().map(|[ours, theirs]| ours / theirs);
            let degree = if degree == 16 { "about 16".to_string() } else { degree.to_string() };
            print!("{terms:>5}  {degree:>12}  {all_visits:>9}  {ended:>5}");
            for [middle, least, greatest] in [summary(ours), summary(theirs), summary(ratios)] {
                print!("  {:>22}", format!("{middle:.2} ({least:.2} to {greatest:.2})"));
            }
            println!();
        }
    }
}

fn list(names: &[String]) -> String {
    if names.is_empty() {
        return "none".to_string();
    }
    names.join(", ")
}

/// The registers of the jobs in the folders, each once, with the names of the jobs that have it.
fn registers(folders: &[String]) -> BTreeMap<Vec<u8>, Vec<String>> {
    let mut found: BTreeMap<Vec<u8>, Vec<String>> = BTreeMap::new();
    let (mut jobs, mut refused) = (0, Vec::new());
    for folder in folders {
        let paths = std::fs::read_dir(folder).expect("a folder of jobs").map(|entry| entry.unwrap().path());
        for path in paths.filter(|path| path.extension().is_some_and(|extension| extension == "job")) {
            let bytes = std::fs::read(&path).unwrap();
            let name = path.file_stem().unwrap().to_string_lossy().into_owned();
            jobs += 1;
            match register::read(&bytes) {
                Ok((_, end)) => found.entry(bytes[..end].to_vec()).or_default().push(name),
                Err(_) => refused.push(name),
            }
        }
    }
    found.values_mut().for_each(|names| names.sort());
    refused.sort();
    println!("{jobs} jobs with {} different registers; register refused: {}", found.len(), list(&refused));
    found
}

fn race_jobs(runs: usize, folders: &[String]) {
    let mut rows: Vec<(usize, usize, Vec<u8>, String)> = Vec::new();
    for (bytes, names) in registers(folders) {
        let (register, _) = register::read(&bytes).unwrap();
        let others = if names.len() > 1 { format!(" and {} more", names.len() - 1) } else { String::new() };
        rows.push((register.choices.len(), register.terms.len(), bytes, format!("{}{others}", names[0])));
    }
    rows.sort_by_key(|row| (row.0, row.1));
    println!("registers of jobs, at most {JOB_LIMIT} visits each");
    println!("microseconds a call, median of {runs} runs, of 3 where there are more than {LIMIT} visits");
    println!("choices  terms       visits      library    reference  library / reference  job");
    // For library and reference, the largest number of choices within a second, and the registers that took longer.
    let mut largest = [0; 2];
    let mut longer: [Vec<String>; 2] = Default::default();
    for (choices, terms, bytes, names) in rows {
        let found = answer(&bytes, JOB_LIMIT);
        // Where no plan fits nothing is left: the visits are the most that there can be.
        let visits = match found {
            Ok(found) => found.visits,
            Err(16) => (2 << choices) - 1,
            Err(_) => JOB_LIMIT,
        };
        let runs = if visits > LIMIT { runs.min(3) } else { runs };
        let figures = race(runs, &bytes, JOB_LIMIT, visits);
        let times = [0, 1].map(|which| summary(figures.iter().map(|times| times[which]))[0]);
        let ratio = summary(figures.iter().map(|[ours, theirs]| ours / theirs))[0];
        let within = !matches!(found, Err(14));
        let shown = if within { visits.to_string() } else { "above limit".to_string() };
        let names = if matches!(found, Err(16)) { format!("{names} (no plan fits)") } else { names };
        let [ours, theirs] = times.map(|seconds| seconds * 1e6);
        println!("{choices:>7}  {terms:>5}  {shown:>11}  {ours:>11.2}  {theirs:>11.2}  {ratio:>19.2}  {names}");
        for which in 0..2 {
            if within && times[which] < 1.0 {
                largest[which] = largest[which].max(choices);
            } else {
                longer[which].push(format!("{names} ({choices} choices)"));
            }
        }
    }
    for (who, largest, longer) in [("library", largest[0], &longer[0]), ("reference", largest[1], &longer[1])] {
        println!("{who}: most choices in under a second: {largest}; not in under a second: {}", list(longer));
    }
}

fn main() {
    let words: Vec<String> = std::env::args().skip(1).collect();
    let [runs, folders @ ..] = &words[..] else { panic!("search_speed RUNS FOLDER..") };
    let runs = runs.parse().expect("a number");
    race_generated(runs);
    println!();
    race_jobs(runs, folders);
}
