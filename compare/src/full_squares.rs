//! Inputs of the check whose time goes to squares: 64 squares, each with all 65 entries, and few other commands.

use crate::generate;
use crate::random::Random;
use crate::timing::{self, Parts};
use reference::certificate::{self, Certificate, Square, ENTRIES, MAX_SQUARES};
use reference::plan::FEEDS_NONE;
use reference::register::{self, Choice, Register, Term, USUAL_DAY};
use reference::scheme::{self, Scheme, MAX_PRODUCTS, MAX_VARIABLES};

/// The heading of the times.
pub const TITLE: &str = "check of 64 full squares";

const INPUTS: usize = 16;

/// As many as leave room for all products.
const CHOICES: usize = MAX_VARIABLES - MAX_PRODUCTS;

/// The largest weight and entry. The squares come to at most 64 · 65 · w · v², less than 4.2 · 10¹¹, in a row, so that one `31`,
/// whose m may be 10¹², makes a row dominant.
const WEIGHT: i64 = 100;
const ENTRY: i64 = 1_000;

/// The same inputs each time, all accepted: 32 choices, 32 products, a term for each variable's set, 64 squares with no entry 0.
/// Each square takes w·v_i² from the diagonal at variable i, and nothing but a `31` of that variable adds to it, so acceptance
/// needs one for each variable. There is no other multiplier.
pub fn inputs() -> Vec<Parts> {
    let mut random = Random(5);
    let (register, scheme) = register_and_scheme(&mut random);
    let mut inputs = Vec::new();
    for _ in 0..INPUTS {
        let squares = (0..MAX_SQUARES).map(|_| square(&mut random)).collect();
        let mut certificate = Certificate { scale: 1, target: 0, multipliers: Vec::new(), squares, end: 0 };
        generate::repair(&register, &scheme, FEEDS_NONE, &mut certificate);
        inputs.push([generate::register_commands(&register).concat(), scheme.bytes(), certificate.bytes()]);
    }
    inputs.iter().for_each(assert_full);
    timing::assert_alike(&inputs);
    inputs
}

/// The products are of two choices that follow each other, and of the first and the last.
fn register_and_scheme(random: &mut Random) -> (Register, Scheme) {
    let mut scheme = Scheme::of_choices(CHOICES);
    for r in 1..CHOICES {
        scheme.add_product(r - 1, r);
    }
    scheme.add_product(0, CHOICES - 1);
    let mut sets: Vec<(u64, usize)> = scheme.sets.iter().copied().zip(0..).collect();
    sets.sort();
    scheme.splits = sets.iter().map(|&(_, variable)| (variable, variable)).collect();
    let mut term = |mask| Term::known(mask, random.within(1, 1_000_000) as i32);
    let register = Register {
        base: 0,
        day_length: USUAL_DAY,
        windows: Vec::new(),
        choices: (1..=CHOICES as u16).map(|tank| Choice { tank, minute: 0 }).collect(),
        rows: Vec::new(),
        terms: sets.iter().map(|&(mask, _)| term(mask)).collect(),
    };
    (register, scheme)
}

fn square(random: &mut Random) -> Square {
    let mut entries = [0; ENTRIES];
    for entry in &mut entries {
        *entry = (random.within(1, ENTRY) * random.pick(&[1, -1])) as i16;
    }
    Square { weight: random.within(1, WEIGHT) as u32, entries }
}

/// The bytes hold what `inputs` says.
fn assert_full(parts: &Parts) {
    let (register, _) = register::read(&parts[0]).expect("a register");
    let (scheme, _) = scheme::read(&register, &parts[1]).expect("a scheme");
    let (certificate, _) = certificate::read(&register, &scheme, &parts[2]).expect("a certificate");
    assert_eq!((scheme.choices, scheme.products.len()), (CHOICES, MAX_PRODUCTS));
    assert!(register.windows.is_empty() && register.terms.len() == scheme.variables());
    assert_eq!(certificate.squares.len(), MAX_SQUARES);
    assert!(certificate.squares.iter().all(|square| square.entries.iter().all(|&entry| entry != 0)));
    let multipliers: Vec<(u8, usize)> = certificate.multipliers.iter().map(|m| (m.kind, m.names[0])).collect();
    let one_each: Vec<(u8, usize)> = (0..scheme.variables()).map(|variable| (0x31, variable)).collect();
    assert_eq!(multipliers, one_each);
}
