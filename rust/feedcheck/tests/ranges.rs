//! Registers with ranges.

use feedcheck::{raw, Outcome, MAX_TERMS};
use std::mem::offset_of;

/// Tank 4 has choices 0 and 1 and tank 7 choice 2; the base cost is 10.
const FRONT: [u8; 20] = [0x10, 10, 0, 0, 0, 0x11, 4, 0, 0xE0, 1, 0x11, 4, 0, 0xD0, 2, 0x11, 7, 0, 0xE0, 1];

fn term(mask: u32, coefficient: i32) -> Vec<u8> {
    [&[0x12][..], &mask.to_le_bytes(), &coefficient.to_le_bytes()].concat()
}

fn range(mask: u32, low: i32, high: i32) -> Vec<u8> {
    [&[0x16][..], &mask.to_le_bytes(), &low.to_le_bytes(), &high.to_le_bytes()].concat()
}

fn with(terms: &[Vec<u8>]) -> Vec<u8> {
    [&FRONT[..], &terms.concat(), &[0x1F]].concat()
}

/// The ranges of terms 0 and 2 are at 20 and 42; 56 bytes.
fn register() -> Vec<u8> {
    with(&[range(1, -6, -4), term(2, -4), range(7, 1, 5)])
}

/// The same with coefficients that are known.
fn known(first: i32, last: i32) -> Vec<u8> {
    with(&[term(1, first), term(2, -4), term(7, last)])
}

const SCHEME: [u8; 16] = [0x21, 0, 1, 0x21, 2, 3, 0x22, 0, 0, 0x22, 1, 1, 0x22, 4, 4, 0x2F];

/// With the coefficients -4, -4 and 1, which the plan of choices 0 and 1 chooses, 2 is the highest target that it carries.
fn certificate(target: i64) -> Vec<u8> {
    let multipliers = [(0x39u8, 0u8, 4i64), (0x39, 1, 4), (0x38, 4, 1)];
    let multipliers = multipliers.map(|(byte, i, m)| [&[byte, i][..], &m.to_le_bytes()].concat());
    [&[0x30, 1, 0, 0, 0][..], &target.to_le_bytes(), &multipliers.concat(), &[0x3F]].concat()
}

fn plan(fed: u32) -> Vec<u8> {
    [&[0x40][..], &fed.to_le_bytes()].concat()
}

fn refused<T: std::fmt::Debug>(answer: Result<T, feedcheck::Refusal>) -> (u8, u8, usize) {
    let refusal = answer.unwrap_err();
    (refusal.number, refusal.part, refusal.position)
}

fn table() -> Vec<i64> {
    vec![77; feedcheck::TABLE_NUMBERS]
}

#[test]
fn entries() {
    let record = feedcheck::register(&register()).unwrap();
    assert_eq!((record.terms, record.has_range()), (3, true));
    assert_eq!(record.masks[..4], [1, 2, 7, 0]);
    assert_eq!(record.coefficients[..4], [-6, -4, 1, 0]);
    assert_eq!(record.highs[..4], [-4, -4, 5, 0]);
    assert_eq!(record.ranged[..4], [true, false, true, false]);
    for t in 3..MAX_TERMS {
        assert_eq!((record.coefficients[t], record.highs[t], record.ranged[t]), (0, 0, false));
    }
    assert!(!feedcheck::register(&known(-6, 1)).unwrap().has_range());
    // A low and a high that are equal are a range, and so are two zeros.
    for (low, high) in [(3, 3), (0, 0), (-1_000_000, 1_000_000)] {
        let record = feedcheck::register(&with(&[range(7, low, high)])).unwrap();
        assert_eq!((record.coefficients[0], record.highs[0], record.has_range()), (low, high, true));
    }
    assert_eq!((offset_of!(raw::Register, coefficients), offset_of!(raw::Register, highs)), (2_264, 3_288));
    assert_eq!((offset_of!(raw::Register, ranged), offset_of!(raw::Register, windows)), (4_312, 4_568));
}

#[test]
fn range_refused() {
    let second = |bytes: Vec<u8>| refused(feedcheck::register(&with(&[range(1, -6, -4), bytes])));
    assert_eq!(second(range(2, -1_000_001, 0)), (4, 1, 33));
    assert_eq!(second(range(2, 0, 1_000_001)), (4, 1, 33));
    assert_eq!(second(range(0, 0, 1)), (5, 1, 33));
    assert_eq!(second(range(8, 0, 1)), (5, 1, 33));
    assert_eq!(second(range(2, 1, 0)), (6, 1, 33));
    assert_eq!(second(range(1, 0, 1)), (7, 1, 33));
    assert_eq!(second(term(1, 1)), (7, 1, 33));
    assert_eq!(refused(feedcheck::register(&with(&[term(1, 1), range(1, 0, 1)]))), (7, 1, 29));
    // The lowest number.
    assert_eq!(second(range(0, 1_000_001, 0)), (4, 1, 33));
    assert_eq!(second(range(0, 1, 0)), (5, 1, 33));
    assert_eq!(second(range(1, 1, 0)), (6, 1, 33));
    // Cut off; before a choice and before a row.
    assert_eq!(refused(feedcheck::register(&register()[..32])), (2, 1, 20));
    assert_eq!(second(FRONT[5..10].to_vec()), (1, 1, 33));
    assert_eq!(second([&[0x14][..], &[0; 34]].concat()), (1, 1, 33));
    let record = raw::register(&with(&[range(1, -6, -4), range(2, 1, 0)])).register;
    assert_eq!((record.terms, record.highs, record.ranged), (0, [0; MAX_TERMS], [false; MAX_TERMS]));
}

/// 256 terms are counted through both kinds.
#[test]
fn limit() {
    let choices: Vec<u8> = (0..9).flat_map(|minute| [0x11, 4, 0, minute, 0]).collect();
    let bytes = |terms: u32| {
        let terms = (1..=terms).map(|mask| if mask % 2 == 0 { term(mask, 1) } else { range(mask, 0, 1) });
        [&FRONT[..5], &choices, &terms.collect::<Vec<_>>().concat(), &[0x1F]].concat()
    };
    let record = feedcheck::register(&bytes(256)).unwrap();
    assert_eq!((record.terms, record.ranged.iter().filter(|&&ranged| ranged).count()), (MAX_TERMS, 128));
    assert_eq!(refused(feedcheck::register(&bytes(257))), (3, 1, 5 + 9 * 5 + 128 * 13 + 128 * 9));
}

#[test]
fn cost() {
    // The high coefficient of each term that the plan feeds: -4, -4 and 5.
    for (fed, cost) in [(0b000, 10), (0b001, 6), (0b011, 2), (0b100, 10), (0b111, 7)] {
        assert_eq!(feedcheck::cost(&register(), &plan(fed)), Ok(cost));
    }
    assert_eq!(refused(feedcheck::cost(&register(), &[plan(0b011), certificate(2)].concat())), (12, 4, 5));
}

/// Search, penalty form and builder take the low coefficients, or none.
#[test]
fn low() {
    let low = known(-6, 1);
    let found = feedcheck::search(&low, 15).unwrap();
    assert_eq!((found.plan, found.cost), (0b011, 0));
    assert_eq!(feedcheck::search(&register(), 15), Ok(found));
    let (mut left, mut right) = (table(), table());
    feedcheck::penalty(&register(), &SCHEME, &mut left).unwrap();
    feedcheck::penalty(&low, &SCHEME, &mut right).unwrap();
    assert_eq!(left, right);
    let (mut left, mut right) = ([0; feedcheck::MAX_BUILT], [0; feedcheck::MAX_BUILT]);
    assert_eq!(feedcheck::build(&register(), &mut left), feedcheck::build(&low, &mut right));
    assert_eq!(left, right);
}

#[test]
fn check() {
    let mut table = table();
    assert_eq!(feedcheck::check(&register(), &SCHEME, &certificate(2), &plan(0b011), &mut table), Ok(2));
    assert!(table[..36].iter().all(|&number| number == 0));
    assert_eq!(refused(feedcheck::check(&register(), &SCHEME, &certificate(3), &plan(0b011), &mut table)), (9, 3, 43));
    // Another plan chooses other coefficients, -6, -4 and 1.
    assert_eq!(refused(feedcheck::check(&register(), &SCHEME, &certificate(2), &plan(0), &mut table)), (9, 3, 43));
    let certificate = [certificate(2), vec![0]].concat();
    assert_eq!(refused(feedcheck::check(&register(), &SCHEME, &certificate, &plan(0b011), &mut table)), (12, 3, 44));
}

/// The plan is read after the scheme and before the certificate.
#[test]
fn plan_refused() {
    let row = [&[0x14, 1, 0, 1, 1][..], &[0; 30]].concat();
    let once = [&FRONT[..], &row, &register()[20..]].concat();
    let mut table = table();
    for (register, bytes, number, position) in [
        (register(), vec![], 2, 0),
        (register(), certificate(2), 1, 0),
        (register(), plan(0b011)[..4].to_vec(), 2, 0),
        (register(), plan(0b1000), 5, 0),
        (register(), [plan(0b011), vec![0]].concat(), 12, 5),
        (once, plan(0b011), 15, 0),
    ] {
        for certificate in [certificate(2), vec![0x7E]] {
            let answer = feedcheck::check(&register, &SCHEME, &certificate, &bytes, &mut table);
            assert_eq!(refused(answer), (number, 4, position));
            assert_eq!(table, self::table());
        }
        let mut buffer = [0xAA; feedcheck::MAX_PLAIN];
        assert_eq!(refused(feedcheck::plain(&register, &SCHEME, &bytes, &mut buffer)), (number, 4, position));
        assert_eq!(buffer, [0xAA; feedcheck::MAX_PLAIN]);
        assert_eq!(refused(feedcheck::plain(&register, &[0x7E], &bytes, &mut buffer)), (1, 2, 0));
    }
}

/// Without a range the bytes of the plan are not looked at.
#[test]
fn plan_not_looked_at() {
    let (register, mut table) = (known(-4, 1), table());
    let (mut without, mut buffer) = ([0; feedcheck::MAX_PLAIN], [0; feedcheck::MAX_PLAIN]);
    let count = feedcheck::plain(&register, &SCHEME, &[], &mut without).unwrap();
    for bytes in [vec![], plan(0b011), plan(0b1000), vec![0x7E; 9]] {
        assert_eq!(feedcheck::check(&register, &SCHEME, &certificate(2), &bytes, &mut table), Ok(2));
        assert_eq!(feedcheck::plain(&register, &SCHEME, &bytes, &mut buffer), Ok(count));
        assert_eq!(buffer, without);
    }
}

/// Our own certificate is accepted beside the plan that it was written for.
#[test]
fn plain() {
    let (mut table, mut buffer) = (table(), [0; feedcheck::MAX_PLAIN]);
    for fed in 0..8 {
        let count = feedcheck::plain(&register(), &SCHEME, &plan(fed), &mut buffer).unwrap();
        let bound = feedcheck::check(&register(), &SCHEME, &buffer[..count], &plan(fed), &mut table).unwrap();
        assert!(bound <= feedcheck::cost(&register(), &plan(fed)).unwrap());
    }
}

/// One choice, which saves from 0 to 5: the certificate of the plan that feeds it has the bound 0, the search finds -5.
#[test]
fn search_below_the_bound() {
    let register = [&[0x10, 0, 0, 0, 0][..], &FRONT[5..10], &range(1, -5, 0), &[0x1F]].concat();
    let (scheme, mut table, mut buffer) = ([0x22, 0, 0, 0x2F], table(), [0; feedcheck::MAX_PLAIN]);
    let count = feedcheck::plain(&register, &scheme, &plan(1), &mut buffer).unwrap();
    assert_eq!(feedcheck::check(&register, &scheme, &buffer[..count], &plan(1), &mut table), Ok(0));
    assert_eq!(feedcheck::cost(&register, &plan(1)), Ok(0));
    assert_eq!(feedcheck::search(&register, 3).map(|found| (found.plan, found.cost)), Ok((1, -5)));
}

fn job(register: &[u8], plan: &[u8], certificate: &[u8]) -> Vec<u8> {
    [register, &SCHEME, plan, certificate].concat()
}

#[test]
fn jobs() {
    let mut tally = feedcheck::Tally::default();
    let mut run = |job: &[u8]| {
        let mut table = table();
        let outcome = feedcheck::job(job, &mut table, 0, &mut tally);
        (outcome, table == self::table())
    };
    let right = job(&register(), &plan(0b011), &certificate(2));
    assert_eq!(run(&right), (Ok(Outcome { bound: 2, cost: 2, gap: 0 }), false));
    // The parts in the order of their numbers: `30` stands where the plan is due.
    let (outcome, untouched) = run(&job(&register(), &certificate(2), &plan(0b011)));
    assert_eq!((refused(outcome), untouched), ((1, 4, 72), true));
    let (outcome, untouched) = run(&job(&register(), &plan(0b1000), &certificate(2)));
    assert_eq!((refused(outcome), untouched), ((5, 4, 72), true));
    let (outcome, untouched) = run(&right[..77]);
    assert_eq!((refused(outcome), untouched), ((2, 3, 77), true));
    let (outcome, untouched) = run(&job(&register(), &plan(0b011), &certificate(3)));
    assert_eq!((refused(outcome), untouched), ((9, 3, 120), false));
    let (outcome, untouched) = run(&[&right[..], &[0]].concat());
    assert_eq!((refused(outcome), untouched), ((12, 3, 121), false));
    // And the other way round without a range.
    let (outcome, untouched) = run(&job(&known(-4, 1), &plan(0b011), &certificate(2)));
    assert_eq!((refused(outcome), untouched), ((1, 3, 64), true));
    assert_eq!(tally.pairs[0], feedcheck::Counters { accepted: 1, refused: 6 });

    let (mut table, mut buffer) = (table(), [0; feedcheck::MAX_LISTING]);
    let count = feedcheck::listing(&right, &mut table, &mut buffer).unwrap();
    assert_eq!(&buffer[..count], b"T 0 4 480\nT 1 4 720\nT 2 7 480\nF 4 480\nF 4 720\nB 2 2 0\n");
    let count = feedcheck::supplier_listing(&right, &mut table, &mut buffer).unwrap();
    assert_eq!(&buffer[..count], b"C 0 1\nC 1 1\nC 2 0\nB 2 2 0\n");
}

/// The gap of the job above is 0: its plan is the cheapest with any coefficients within the ranges.
#[test]
fn cheapest_within_the_ranges() {
    for first in -6..=-4 {
        for last in 1..=5 {
            let cost = |fed| feedcheck::cost(&known(first, last), &plan(fed)).unwrap();
            assert!((0..8).all(|fed| cost(0b011) <= cost(fed)));
        }
    }
}
