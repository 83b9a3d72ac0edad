//! Registers with rows.

use feedcheck::{raw, MAX_ROWS, ROW_ENTRIES};
use std::mem::{offset_of, size_of};

/// A `14` with this total and these entries, and 0 for the choices behind them.
fn row(total: i16, entries: &[i8]) -> Vec<u8> {
    let mut bytes = vec![0x14];
    bytes.extend(total.to_le_bytes());
    bytes.extend(entries.iter().map(|&entry| entry as u8));
    bytes.resize(3 + ROW_ENTRIES, 0);
    bytes
}

/// Tank 3 has choices 0 to 3 and tank 8 choice 4; the base cost is 20.
const FRONT: [u8; 30] =
    [0x10, 20, 0, 0, 0, 0x11, 3, 0, 0x68, 1, 0x11, 3, 0, 0x58, 2, 0x11, 3, 0, 0x48, 3, 0x11, 3, 0, 0x38, 4, 0x11, 8, 0, 0xD0, 2];

/// The terms: the choices save 8, 5, 2, 1 and 4, and any two of tank 3 together cost 7.
const TERMS: [(u32, i32); 11] = [(1, -8), (2, -5), (3, 7), (4, -2), (5, 7), (6, 7), (8, -1), (9, 7), (10, 7), (12, 7), (16, -4)];

fn register(rows: &[Vec<u8>]) -> Vec<u8> {
    let terms = TERMS.map(|(mask, coefficient)| [&[0x12][..], &mask.to_le_bytes(), &coefficient.to_le_bytes()].concat());
    [&FRONT[..], &rows.concat(), &terms.concat(), &[0x1F]].concat()
}

/// Tank 3 is fed twice. The register of docs/SUPPLIERS.md, 165 bytes; the row is at 30.
fn twice() -> Vec<u8> {
    register(&[row(2, &[1, 1, 1, 1])])
}

/// No product, and each term as it stands.
fn scheme() -> Vec<u8> {
    let splits = TERMS.map(|(mask, _)| [0x22, mask.trailing_zeros() as u8, mask.ilog2() as u8]);
    [&splits.concat()[..], &[0x2F]].concat()
}

fn add(names: &[u8], m: i64) -> Vec<u8> {
    [names, &m.to_le_bytes()].concat()
}

/// The certificate of docs/SUPPLIERS.md with this target; 20 is the highest that it carries.
fn certificate(target: i64) -> Vec<u8> {
    let scale = add(&[0x30, 2, 0, 0, 0], target);
    let rows = [0, 1, 2, 3].map(|i| add(&[0x3B, 0, i], -7)).concat();
    let squares = [0, 1, 2, 3].map(|i| add(&[0x31, i], 7)).concat();
    let linear = [(0x39, 0, 9), (0x39, 1, 3), (0x38, 2, 3), (0x38, 3, 5), (0x39, 4, 8)];
    [scale, rows, squares, linear.map(|(byte, i, m)| add(&[byte, i], m)).concat(), vec![0x3F]].concat()
}

fn plan(fed: u32) -> Vec<u8> {
    [&[0x40][..], &fed.to_le_bytes()].concat()
}

fn job(fed: u32) -> Vec<u8> {
    [twice(), scheme(), certificate(20), plan(fed)].concat()
}

fn refused<T: std::fmt::Debug>(answer: Result<T, feedcheck::Refusal>) -> (u8, u8, usize) {
    let refusal = answer.unwrap_err();
    (refusal.number, refusal.part, refusal.position)
}

#[test]
fn entries() {
    let rows = [row(2, &[1, 1, 1, 1]), row(-4_064, &[-128, 127, 0, 0, -1]), row(4_064, &[])];
    let record = feedcheck::register(&register(&rows)).unwrap();
    assert_eq!((record.choices, record.rows, record.terms), (5, 3, 11));
    assert_eq!(record.row_totals, [2, -4_064, 4_064, 0, 0, 0, 0, 0]);
    assert_eq!(record.row_entries[..6], [1, 1, 1, 1, 0, 0]);
    assert_eq!(record.row_entries[ROW_ENTRIES..][..6], [-128, 127, 0, 0, -1, 0]);
    assert!(record.row_entries[ROW_ENTRIES + 5..].iter().all(|&entry| entry == 0));

    let record = feedcheck::register(&register(&[])).unwrap();
    assert_eq!((record.rows, record.row_totals, record.row_entries), (0, [0; MAX_ROWS], [0; MAX_ROWS * ROW_ENTRIES]));
}

#[test]
fn row_refused() {
    // A total past 4,064; an entry of choice 5, which is not there; both, of which 4 is the lower number.
    assert_eq!(refused(feedcheck::register(&register(&[row(4_065, &[])]))), (4, 1, 30));
    assert_eq!(refused(feedcheck::register(&register(&[row(-4_065, &[])]))), (4, 1, 30));
    assert_eq!(refused(feedcheck::register(&register(&[row(1, &[0, 0, 0, 0, 0, 1])]))), (5, 1, 30));
    assert_eq!(refused(feedcheck::register(&register(&[row(4_065, &[0, 0, 0, 0, 0, 1])]))), (4, 1, 30));
    // Eight are accepted, the ninth is not, whatever it holds.
    assert_eq!(feedcheck::register(&register(&vec![row(1, &[1]); MAX_ROWS])).unwrap().rows, MAX_ROWS);
    let nine = register(&[vec![row(1, &[1]); MAX_ROWS], vec![row(4_065, &[])]].concat());
    assert_eq!(refused(feedcheck::register(&nine)), (3, 1, 30 + 8 * 35));
    // Cut off.
    assert_eq!(refused(feedcheck::register(&twice()[..64])), (2, 1, 30));

    let record = raw::register(&register(&[row(2, &[1, 1, 1, 1]), row(4_065, &[])])).register;
    assert_eq!((record.choices, record.rows, record.row_totals), (0, 0, [0; MAX_ROWS]));
    assert_eq!(record.row_entries, [0; MAX_ROWS * ROW_ENTRIES]);
}

/// After windows and choices, before terms. Before any choice a row is a command too, and no choice may follow it.
#[test]
fn place() {
    let bytes = twice();
    let misplaced = |rest: &[u8]| refused(feedcheck::register(&[&bytes[..65], rest].concat()));
    assert_eq!(misplaced(&FRONT[5..10]), (1, 1, 65));
    assert_eq!(misplaced(&[0x13, 3, 0, 0, 0, 0xA0, 5]), (1, 1, 65));
    assert_eq!(misplaced(&[0x18, 0xA0, 5]), (1, 1, 65));
    assert_eq!(refused(feedcheck::register(&[&bytes[..74], &row(0, &[])].concat())), (1, 1, 74));
    assert_eq!(refused(feedcheck::register(&[&FRONT[..5], &row(0, &[1])].concat())), (5, 1, 5));
    assert_eq!(refused(feedcheck::register(&[&FRONT[..5], &row(0, &[]), &[0x1F]].concat())), (3, 1, 40));
    assert_eq!(refused(feedcheck::register(&[&FRONT[..5], &row(0, &[]), &FRONT[5..10]].concat())), (1, 1, 40));
}

/// The rows stand at the end of the record.
#[test]
fn record() {
    assert_eq!((size_of::<raw::RegisterAnswer>(), size_of::<raw::Register>()), (5_256, 5_240));
    assert_eq!((offset_of!(raw::Register, windows), offset_of!(raw::Register, window_tos)), (4_568, 4_832));
    assert_eq!(offset_of!(raw::Register, rows), 4_960);
    assert_eq!((offset_of!(raw::Register, row_totals), offset_of!(raw::Register, row_entries)), (4_968, 4_984));
}

#[test]
fn cost() {
    assert_eq!(feedcheck::cost(&twice(), &plan(0b10011)), Ok(10));
    assert_eq!(refused(feedcheck::cost(&twice(), &plan(0b10001))), (15, 4, 0));
    assert_eq!(feedcheck::cost(&register(&[]), &plan(0b10001)), Ok(8));
    // A choice that is not there comes first; bytes behind the plan come after.
    assert_eq!(refused(feedcheck::cost(&twice(), &plan(0b100001))), (5, 4, 0));
    assert_eq!(refused(feedcheck::cost(&twice(), &[plan(0b10001), vec![0]].concat())), (15, 4, 0));
    // Each row is to be fitted.
    let two = register(&[row(2, &[1, 1, 1, 1]), row(-3, &[-1, -2, -3, -4])]);
    assert_eq!(feedcheck::cost(&two, &plan(0b00011)), Ok(14));
    assert_eq!(refused(feedcheck::cost(&two, &plan(0b00101))), (15, 4, 0));
    let refusal = feedcheck::cost(&two, &plan(0b00100)).unwrap_err();
    assert_eq!(refusal.to_string(), "refusal 15 in part 4 at byte 0: the plan does not fit the rows");
}

#[test]
fn search() {
    assert_eq!(feedcheck::search(&twice(), 55), Ok(feedcheck::Found { plan: 0b10011, cost: 10, visits: 55 }));
    assert_eq!(refused(feedcheck::search(&twice(), 54)), (14, 0, 0));
    assert_eq!(feedcheck::search(&register(&[]), 47), Ok(feedcheck::Found { plan: 0b10001, cost: 8, visits: 47 }));
    // No plan has five feedings of tank 3: nothing is left, and all 63 partial plans are visited.
    let none = register(&[row(5, &[1, 1, 1, 1])]);
    assert_eq!(refused(feedcheck::search(&none, 62)), (14, 0, 0));
    let refusal = feedcheck::search(&none, 63).unwrap_err();
    assert_eq!(refusal.to_string(), "refusal 16: no plan fits the rows");
    let answer = raw::search(&none, 63);
    assert_eq!((answer.number, answer.part, answer.position), (16, 0, 0));
    assert_eq!((answer.plan, answer.cost, answer.visits), (0, 0, 0));
}

#[test]
fn check() {
    let mut table = vec![77; feedcheck::TABLE_NUMBERS];
    assert_eq!(feedcheck::check(&twice(), &scheme(), &certificate(20), &[], &mut table), Ok(10));
    assert!(table[..36].iter().all(|&number| number == 0));
    assert_eq!(refused(feedcheck::check(&twice(), &scheme(), &certificate(21), &[], &mut table)), (9, 3, 147));
    // With the row left out, or another in its place, the row that `3B` names is not there, or the certificate falls short.
    assert_eq!(refused(feedcheck::check(&register(&[]), &scheme(), &certificate(20), &[], &mut table)), (5, 3, 13));
    let other = register(&[row(1, &[1, 1, 1, 1])]);
    assert_eq!(refused(feedcheck::check(&other, &scheme(), &certificate(20), &[], &mut table)), (9, 3, 147));

    let mut form = |names: &[u8], m| {
        let bytes = [add(&[0x30, 2, 0, 0, 0], 0), add(names, m)].concat();
        refused(feedcheck::check(&twice(), &scheme(), &bytes, &[], &mut table))
    };
    assert_eq!(form(&[0x3B, 0, 4], 1_000_000_000), (2, 3, 24));
    assert_eq!(form(&[0x3B, 0, 4], 1_000_000_001), (4, 3, 13));
    assert_eq!(form(&[0x3B, 0, 4], -1_000_000_001), (4, 3, 13));
    assert_eq!(form(&[0x3B, 1, 4], 1), (5, 3, 13));
    assert_eq!(form(&[0x3B, 0, 5], 1), (5, 3, 13));
}

/// For a choice of the row the place of its square has twice m times its entry.
#[test]
fn places() {
    let mut table = vec![0; feedcheck::TABLE_NUMBERS];
    let bytes = [add(&[0x30, 1, 0, 0, 0], -1_000), add(&[0x3B, 0, 1], 3), vec![0x3F]].concat();
    let register = [&FRONT[..], &row(2, &[5, -7, 0, 11]), &[0x1F]].concat();
    assert_eq!(refused(feedcheck::check(&register, &[0x2F], &bytes, &[], &mut table)), (9, 3, 24));
    let expected = [[2_040, 0, -6, 0, 0, 0], [0, 0, 15, 0, 0, 0], [-6, 15, -42, 0, 33, 0], [0; 6], [0, 0, 33, 0, 0, 0], [0; 6]];
    assert_eq!(table[..36], expected.concat());
}

/// Penalty form and own certificate don't look at the rows, also where no plan fits.
#[test]
fn rows_not_looked_at() {
    let (mut table, mut other) = (vec![0; feedcheck::TABLE_NUMBERS], vec![0; feedcheck::TABLE_NUMBERS]);
    for rows in [row(2, &[1, 1, 1, 1]), row(5, &[1, 1, 1, 1])] {
        let register = register(&[rows]);
        feedcheck::penalty(&register, &scheme(), &mut table).unwrap();
        feedcheck::penalty(&self::register(&[]), &scheme(), &mut other).unwrap();
        assert_eq!(table, other);
        let (mut buffer, mut without) = ([0; feedcheck::MAX_PLAIN], [0; feedcheck::MAX_PLAIN]);
        let count = feedcheck::plain(&register, &scheme(), &[], &mut buffer).unwrap();
        assert_eq!(feedcheck::plain(&self::register(&[]), &scheme(), &[], &mut without), Ok(count));
        assert_eq!(buffer, without);
        assert!(feedcheck::check(&register, &scheme(), &buffer[..count], &[], &mut table).unwrap() <= 8);
    }
}

#[test]
fn jobs() {
    let mut table = vec![0; feedcheck::TABLE_NUMBERS];
    let mut tally = feedcheck::Tally::default();
    let outcome = feedcheck::job(&job(0b10011), &mut table, 0, &mut tally);
    assert_eq!(outcome, Ok(feedcheck::Outcome { bound: 10, cost: 10, gap: 0 }));
    assert_eq!(refused(feedcheck::job(&job(0b10001), &mut table, 0, &mut tally)), (15, 4, 347));
    assert_eq!(refused(feedcheck::job(&[job(0b10001), vec![0]].concat(), &mut table, 0, &mut tally)), (15, 4, 347));
    assert_eq!(tally.pairs[0], feedcheck::Counters { accepted: 1, refused: 2 });

    let mut buffer = [0; feedcheck::MAX_LISTING];
    let mut listed = |job: &[u8]| {
        let count = feedcheck::listing(job, &mut table, &mut buffer).unwrap();
        String::from_utf8_lossy(&buffer[..count]).into_owned()
    };
    let lines = "T 0 3 360\nT 1 3 600\nT 2 3 840\nT 3 3 1080\nT 4 8 720\nF 3 360\nF 3 600\nF 8 720\nB 10 10 0\n";
    assert_eq!(listed(&job(0b10011)), lines);
    assert_eq!(listed(&job(0b10001)), "R 15 347\n");
}
