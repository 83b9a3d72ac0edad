//! Times the proved library and the reference on the same bytes: the check of full certificates and of 64 full squares, and the
//! penalty form of a scheme that makes the test whether a term uses a product as long as we could.
//!
//!     speed [RUNS]

use compare::full_squares;
use compare::generate::{self, Size};
use compare::random::Random;
use compare::timing::{self, spread, Parts};
use reference::certificate::{self, Certificate, MAX_MULTIPLIERS, MAX_SQUARES};
use reference::plan::FEEDS_NONE;
use reference::register::{self, Choice, Register, Term, USUAL_DAY};
use reference::scheme::{self, Scheme};
use reference::table::NUMBERS;

/// Accepted certificates of 32 choices, 64 variables, 256 terms, 1,024 multipliers of all kinds and 64 squares.
fn full_certificates(count: usize) -> Vec<Parts> {
    let mut random = Random(4);
    let mut found = Vec::new();
    while found.len() < count {
        let (register, scheme) = generate::products_of(&mut random, Size::Full, 32);
        let mut certificate = generate::random_certificate(&mut random, Size::Full, &register, &scheme, true);
        generate::repair(&register, &scheme, FEEDS_NONE, &mut certificate);
        if full(&register, &scheme, &certificate) {
            let parts = [
                generate::register_commands(&register).concat(),
                generate::scheme_commands(&scheme).concat(),
                generate::certificate_commands(&mut random, &certificate).concat(),
            ];
            if reference::check(&parts[0], &parts[1], &parts[2], &[], &mut [0; NUMBERS]).is_ok() {
                found.push(parts);
            }
        }
    }
    found
}

fn full(register: &Register, scheme: &Scheme, certificate: &Certificate) -> bool {
    let counts = (certificate.multipliers.len(), certificate.squares.len());
    register.terms.len() == 256 && scheme.variables() == 64 && counts == (MAX_MULTIPLIERS, MAX_SQUARES)
}

/// The same inputs without their squares. Not all of them are accepted then.
fn without_squares(inputs: &[Parts]) -> Vec<Parts> {
    let bare = |parts: &Parts| {
        let (register, _) = register::read(&parts[0]).expect("a register");
        let (scheme, _) = scheme::read(&register, &parts[1]).expect("a scheme");
        let (mut certificate, _) = certificate::read(&register, &scheme, &parts[2]).expect("a certificate");
        certificate.squares.clear();
        [parts[0].clone(), parts[1].clone(), certificate.bytes()]
    };
    inputs.iter().map(bare).collect()
}

/// Runs both by turns, and prints the times and the ratios.
fn race<T, A, B>(what: &str, runs: usize, inputs: &[T], mut library: impl FnMut(&T) -> A, mut reference: impl FnMut(&T) -> B) {
    let figures: Vec<[f64; 2]> = (0..runs).map(|_| timing::run(inputs, &mut library, &mut reference)).collect();
    println!("{what}, each input's fastest time, {runs} runs");
    println!("  library, microseconds a call:   {}", spread(figures.iter().map(|[a, _]| *a)));
    println!("  reference, microseconds a call: {}", spread(figures.iter().map(|[_, b]| *b)));
    println!("  library / reference:            {}", spread(figures.iter().map(|[a, b]| a / b)));
}

/// Races the check, the table not cleared before a call, then cleared.
fn race_check(what: &str, runs: usize, inputs: &[Parts]) {
    let mut table = vec![0i64; NUMBERS];
    let mut other = vec![0i64; NUMBERS];
    race(
        &format!("{what}, the table not cleared before a call"),
        runs,
        inputs,
        |parts| feedcheck::check(&parts[0], &parts[1], &parts[2], &[], &mut table),
        |parts| reference::check(&parts[0], &parts[1], &parts[2], &[], &mut other),
    );
    race(
        &format!("{what}, the table cleared before each call"),
        runs,
        inputs,
        |parts| {
            table.fill(0);
            feedcheck::check(&parts[0], &parts[1], &parts[2], &[], &mut table)
        },
        |parts| {
            other.fill(0);
            reference::check(&parts[0], &parts[1], &parts[2], &[], &mut other)
        },
    );
}

/// A scheme of 32 choices, 32 products and 256 terms in which most products are reached from a term's split on many ways, found
/// by a search that counted the steps of the test. A product is named by its operands; each term is the split whose walk is
/// longest among those with its mask.
fn deep_scheme() -> [Vec<u8>; 2] {
    let mut scheme = Scheme::of_choices(32);
    for (l, r) in DEEP {
        scheme.add_product(l, r);
    }
    let steps = steps(&scheme);
    let mut pairs: Vec<(u64, usize, usize)> = Vec::new();
    for r in 0..scheme.variables() {
        pairs.extend((0..=r).map(|l| (steps[l] + steps[r], l, r)));
    }
    pairs.sort_by(|a, b| b.cmp(a));
    let mut splits: Vec<(u64, usize, usize)> = Vec::new();
    let mut total = 0;
    for (count, l, r) in pairs {
        let mask = scheme.union(l, r);
        if splits.len() < 256 && splits.iter().all(|split| split.0 != mask) {
            splits.push((mask, l, r));
            total += count;
        }
    }
    splits.sort();
    scheme.splits = splits.iter().map(|&(_, l, r)| (l, r)).collect();
    println!("deep scheme: {total} steps of the test whether a term uses a product");
    let register = Register {
        base: 0,
        day_length: USUAL_DAY,
        windows: Vec::new(),
        choices: (1..33).map(|tank| Choice { tank, minute: 0 }).collect(),
        rows: Vec::new(),
        terms: splits.iter().map(|&(mask, _, _)| Term::known(mask, 1_000_000)).collect(),
    };
    [generate::register_commands(&register).concat(), generate::scheme_commands(&scheme).concat()]
}

/// For each variable, in how many steps it is followed down its operands, left before right, until each product is found or not,
/// all products together. A walk goes no further below the product that it looks for, whose operands have smaller numbers.
fn steps(scheme: &Scheme) -> Vec<u64> {
    let count = scheme.variables();
    let mut sums = vec![0; count];
    for k in scheme.choices..count {
        let mut walk = vec![(1, false); count];
        walk[k] = (1, true);
        for v in k + 1..count {
            let (l, r) = scheme.operands(v);
            let (left, right): ((u64, bool), (u64, bool)) = (walk[l], walk[r]);
            walk[v] = if left.1 { (1 + left.0, true) } else { (1 + left.0 + right.0, right.1) };
        }
        sums.iter_mut().zip(&walk).for_each(|(sum, step)| *sum += step.0);
    }
    sums
}

#[rustfmt::skip]
const DEEP: [(usize, usize); 32] = [
    (0, 1), (0, 2), (3, 33), (4, 33), (5, 35), (3, 36), (6, 7), (8, 38),
    (9, 38), (39, 40), (10, 41), (11, 42), (12, 41), (42, 44), (13, 45), (43, 45),
    (14, 47), (46, 47), (15, 49), (48, 49), (16, 51), (50, 51), (17, 53), (52, 53),
    (18, 55), (54, 55), (19, 57), (56, 57), (58, 59), (20, 60), (21, 60), (61, 62),
];

fn main() {
    let runs = std::env::args().nth(1).map_or(10, |word| word.parse().expect("a number"));

    let inputs = full_certificates(16);
    timing::assert_alike(&inputs);
    let lengths: Vec<usize> = inputs.iter().map(|parts| parts[2].len()).collect();
    println!(
        "{} full certificates of {} to {} bytes",
        inputs.len(),
        lengths.iter().min().unwrap(),
        lengths.iter().max().unwrap()
    );
    race_check("check of full certificates", runs, &inputs);
    race_check("check of full certificates without their squares", runs, &without_squares(&inputs));

    let squares = full_squares::inputs();
    println!("{} certificates of 64 full squares, {} bytes each", squares.len(), squares[0][2].len());
    race_check(full_squares::TITLE, runs, &squares);
    race_check(&format!("{} without the squares", full_squares::TITLE), runs, &without_squares(&squares));

    let mut table = vec![0i64; NUMBERS];
    let mut other = vec![0i64; NUMBERS];
    let deep = [deep_scheme()];
    assert!(feedcheck::penalty(&deep[0][0], &deep[0][1], &mut table).is_ok());
    assert!(reference::penalty(&deep[0][0], &deep[0][1], &mut other).is_ok());
    assert!(table == other);
    race(
        "penalty form of the deep scheme, the table not cleared before a call",
        runs,
        &deep,
        |parts| feedcheck::penalty(&parts[0], &parts[1], &mut table),
        |parts| reference::penalty(&parts[0], &parts[1], &mut other),
    );
    let usual: Vec<[Vec<u8>; 2]> = inputs.iter().map(|parts| [parts[0].clone(), parts[1].clone()]).collect();
    race(
        "penalty form of the schemes of the full certificates, the same way",
        runs,
        &usual,
        |parts| feedcheck::penalty(&parts[0], &parts[1], &mut table),
        |parts| reference::penalty(&parts[0], &parts[1], &mut other),
    );
}
