//! Registers of up to 48 choices, terms by `15` and plans by `41`.

use feedcheck::{raw, Outcome, Refusal, MAX_CHOICES, MAX_PRODUCTS, MAX_TERMS, MAX_VARIABLES};
use std::mem::{offset_of, size_of};

/// Base cost 10, and choices of tanks 1, 2 and so on, in the first minute.
fn front(choices: usize) -> Vec<u8> {
    let choices = (1..=choices as u16).flat_map(|tank| [[0x11].as_slice(), &tank.to_le_bytes(), &[0, 0]].concat());
    [0x10, 10, 0, 0, 0].into_iter().chain(choices).collect()
}

fn with(choices: usize, rest: &[Vec<u8>]) -> Vec<u8> {
    [front(choices), rest.concat(), vec![0x1F]].concat()
}

fn narrow(mask: u32, coefficient: i32) -> Vec<u8> {
    [&[0x12][..], &mask.to_le_bytes(), &coefficient.to_le_bytes()].concat()
}

fn wide(mask: u64, coefficient: i32) -> Vec<u8> {
    [&[0x15][..], &mask.to_le_bytes(), &coefficient.to_le_bytes()].concat()
}

/// The mask of a `15`.
fn mask_of(term: &[u8]) -> u64 {
    u64::from_le_bytes(term[1..9].try_into().unwrap())
}

fn range(mask: u32, low: i32, high: i32) -> Vec<u8> {
    [&[0x16][..], &mask.to_le_bytes(), &low.to_le_bytes(), &high.to_le_bytes()].concat()
}

fn row(total: i16, entries: [u8; 32]) -> Vec<u8> {
    [&[0x14][..], &total.to_le_bytes(), &entries].concat()
}

fn narrow_plan(fed: u32) -> Vec<u8> {
    [&[0x40][..], &fed.to_le_bytes()].concat()
}

fn wide_plan(fed: u64) -> Vec<u8> {
    [&[0x41][..], &fed.to_le_bytes()].concat()
}

fn refused<T: std::fmt::Debug>(answer: Result<T, Refusal>) -> (u8, u8, usize) {
    let refusal = answer.unwrap_err();
    (refusal.number, refusal.part, refusal.position)
}

fn table() -> Vec<i64> {
    vec![77; feedcheck::TABLE_NUMBERS]
}

#[test]
fn choices() {
    let record = feedcheck::register(&with(48, &[])).unwrap();
    assert_eq!((record.choices, MAX_CHOICES), (48, 48));
    assert_eq!(record.tanks, std::array::from_fn(|i| i as u16 + 1));
    assert_eq!(refused(feedcheck::register(&with(49, &[]))), (3, 1, 5 + 48 * 5));
    // Cut off, and of a tank that can't be.
    assert_eq!(refused(feedcheck::register(&front(49)[..5 + 49 * 5 - 1])), (2, 1, 5 + 48 * 5));
    assert_eq!(refused(feedcheck::register(&[front(48), vec![0x11, 0, 0, 0, 0]].concat())), (3, 1, 5 + 48 * 5));
}

/// A term of each choice by itself, by `15` where that is chosen or needed.
#[test]
fn terms() {
    let mixed = |by_15: fn(u32) -> bool| -> Vec<Vec<u8>> {
        (0..48).map(|i| if i > 31 || by_15(i) { wide(1 << i, i as i32 + 1) } else { narrow(1 << i, i as i32 + 1) }).collect()
    };
    let record = feedcheck::register(&with(48, &mixed(|_| false))).unwrap();
    assert_eq!((record.terms, record.masks[47], record.masks[48]), (48, 1 << 47, 0));
    assert!((0..48).all(|i| (record.masks[i], record.coefficients[i]) == (1 << i, i as i32 + 1)));
    assert_eq!((record.highs, record.ranged), (record.coefficients, [false; MAX_TERMS]));
    for by_15 in [|i| i % 2 == 0, |i| i % 2 == 1, |i| i < 16, |_| true] {
        assert_eq!(feedcheck::register(&with(48, &mixed(by_15))), Ok(record));
    }
    // Of few choices too.
    let record = feedcheck::register(&with(2, &[narrow(1, 4), wide(2, -5), narrow(3, 6)])).unwrap();
    assert_eq!((record.masks[..4].to_vec(), record.coefficients[..4].to_vec()), (vec![1, 2, 3, 0], vec![4, -5, 6, 0]));
    assert_eq!(feedcheck::register(&with(2, &[wide(1, 4), narrow(2, -5), wide(3, 6)])), Ok(record));
}

#[test]
fn term_refused() {
    let at = front(40).len();
    let first = |bytes: Vec<u8>| refused(feedcheck::register(&with(40, &[bytes])));
    assert_eq!(first(wide(1 << 39, 0)), (4, 1, at));
    assert_eq!(first(wide(1 << 39, 1_000_001)), (4, 1, at));
    assert_eq!(first(wide(1 << 39, -1_000_001)), (4, 1, at));
    assert_eq!(first(wide(0, 1)), (5, 1, at));
    for past in 40..64 {
        assert_eq!(first(wide(1 << past, 1)), (5, 1, at));
        assert_eq!(first(wide(1 << past | 1, 1)), (5, 1, at));
    }
    assert_eq!(first(wide(1 << 63, 0)), (4, 1, at));
    // Cut off, and before any choice.
    assert_eq!(refused(feedcheck::register(&[front(40), wide(1, 1)[..12].to_vec()].concat())), (2, 1, at));
    assert_eq!(refused(feedcheck::register(&with(0, &[wide(1, 1)]))), (5, 1, 5));
    // No choice, row or second length after it.
    for next in [front(1)[5..].to_vec(), row(0, [0; 32]), vec![0x18, 0xA0, 5], vec![0x13, 1, 0, 0, 0, 1, 0]] {
        assert_eq!(refused(feedcheck::register(&with(40, &[wide(1 << 39, 1), next]))), (1, 1, at + 13));
    }

    // Masks rise as numbers through all three commands.
    let two = |one: Vec<u8>, other: Vec<u8>| {
        let bytes = with(40, &[one.clone(), other]);
        feedcheck::register(&bytes).map(|record| record.terms).map_err(|refusal| (refusal.number, refusal.position - one.len()))
    };
    let of = |mask: u32| [narrow(mask, 1), wide(mask as u64, 1), range(mask, 1, 1)];
    for one in of(6) {
        for other in of(7) {
            assert_eq!(two(one.clone(), other), Ok(2));
        }
        for other in of(6).into_iter().chain(of(5)) {
            assert_eq!(two(one.clone(), other), Err((7, at)));
        }
        assert_eq!(two(one.clone(), wide(1 << 32, 1)), Ok(2));
        assert_eq!(two(wide(1 << 32, 1), one), Err((7, at)));
    }
    let record = raw::register(&with(40, &[wide(1 << 39, 1), wide(1, 1)])).register;
    assert_eq!((record.choices, record.terms, record.masks), (0, 0, [0; MAX_TERMS]));
}

/// 256 terms are counted through all three commands.
#[test]
fn term_limit() {
    let bytes = |terms: u32| {
        let term = |mask: u32| match mask % 3 {
            0 => narrow(mask, 1),
            1 => wide(mask as u64, 1),
            _ => range(mask, 0, 1),
        };
        with(48, &(1..=255).map(term).chain((255..terms).map(|mask| wide((mask as u64) << 32, 1))).collect::<Vec<_>>())
    };
    assert_eq!(feedcheck::register(&bytes(256)).map(|record| record.terms), Ok(MAX_TERMS));
    assert_eq!(refused(feedcheck::register(&bytes(257))), (3, 1, bytes(256).len() - 1));
}

/// Masks are 64 bits wide, and the arrays of choices have 48 places.
#[test]
fn record() {
    assert_eq!((size_of::<raw::RegisterAnswer>(), size_of::<raw::Register>()), (5_256, 5_240));
    assert_eq!((offset_of!(raw::Register, tanks), offset_of!(raw::Register, minutes)), (24, 120));
    assert_eq!((offset_of!(raw::Register, masks), offset_of!(raw::Register, coefficients)), (216, 2_264));
    assert_eq!((size_of::<raw::SearchAnswer>(), offset_of!(raw::SearchAnswer, plan)), (40, 16));
    assert_eq!((offset_of!(raw::SearchAnswer, cost), offset_of!(raw::SearchAnswer, visits)), (24, 32));
}

/// As many products as there are variables for, and one more.
#[test]
fn products() {
    for (choices, most) in [(31, 32), (32, 32), (33, 31), (40, 24), (47, 17), (48, 16)] {
        assert_eq!(most, MAX_PRODUCTS.min(MAX_VARIABLES - choices));
        // Of choice 0 and each other choice, and then of choice 1 and the next three.
        let pairs = (1..choices as u8).map(|r| [0x21, 0, r]).chain([2, 3, 4].map(|r| [0x21, 1, r]));
        let scheme = |products: usize| [pairs.clone().take(products).collect::<Vec<_>>().concat(), vec![0x2F]].concat();
        let record = feedcheck::scheme(&with(choices, &[]), &scheme(most)).unwrap();
        assert_eq!((record.products, record.lefts[most - 1]), (most, scheme(most)[3 * most - 2]));
        assert_eq!(refused(feedcheck::scheme(&with(choices, &[]), &scheme(most + 1))), (3, 2, 3 * most));
        // 3 before what else is wrong with it, but not before its end.
        let wrong = [&scheme(most)[..3 * most], &[0x21, 99, 99]].concat();
        assert_eq!(refused(feedcheck::scheme(&with(choices, &[]), &wrong)), (3, 2, 3 * most));
        assert_eq!(refused(feedcheck::scheme(&with(choices, &[]), &wrong[..wrong.len() - 1])), (2, 2, 3 * most));
    }
}

#[test]
fn build() {
    let mut buffer = [0; feedcheck::MAX_BUILT];
    let mut built = |choices: usize, degree: u32| {
        let bytes = with(choices, &[wide(1, 1), wide((1 << degree) - 1, 1)]);
        feedcheck::build(&bytes, &mut buffer).map_err(|refusal| (refusal.number, refusal.part, refusal.position))
    };
    // A term of d choices takes d - 2 products here.
    for (choices, degree) in [(33, 33), (34, 32), (40, 26), (48, 18)] {
        assert_eq!(built(choices, degree), Ok(3 * (degree as usize - 2) + 2 * 3 + 1));
        if (degree as usize) < choices {
            assert_eq!(built(choices, degree + 1), Err((10, 1, front(choices).len() + 13)));
        }
    }
    let refusal = feedcheck::build(&with(48, &[wide((1 << 48) - 1, 1)]), &mut buffer).unwrap_err();
    let text = "refusal 10 in part 1 at byte 245: the builder needs a 33rd product or a 65th variable";
    assert_eq!(refusal.to_string(), text);
}

/// Choices 31, 32 and 47 save 1, 2 and 4; each two of them cost 8.
fn saving() -> Vec<Vec<u8>> {
    let (a, b, c) = (1 << 31, 1 << 32, 1 << 47);
    let terms = [(a, -1), (b, -2), (a | b, 8), (c, -4), (a | c, 8), (b | c, 8)];
    terms.map(|(mask, coefficient)| wide(mask, coefficient)).to_vec()
}

#[test]
fn cost() {
    let register = with(48, &saving());
    assert_eq!(feedcheck::cost(&register, &wide_plan(0)), Ok(10));
    assert_eq!(feedcheck::cost(&register, &wide_plan(1 << 47)), Ok(6));
    assert_eq!(feedcheck::cost(&register, &wide_plan(1 << 47 | 1 << 32)), Ok(12));
    assert_eq!(feedcheck::cost(&register, &wide_plan((1 << 48) - 1)), Ok(27));
    // The same plan by either command.
    for fed in [0, 1, 1 << 31, u32::MAX] {
        assert_eq!(feedcheck::cost(&register, &narrow_plan(fed)), feedcheck::cost(&register, &wide_plan(fed as u64)));
    }
    assert_eq!(refused(feedcheck::cost(&register, &wide_plan(1 << 48))), (5, 4, 0));
    assert_eq!(refused(feedcheck::cost(&register, &wide_plan(1 << 63))), (5, 4, 0));
    assert_eq!(refused(feedcheck::cost(&with(3, &[]), &wide_plan(1 << 32))), (5, 4, 0));
    for length in 1..9 {
        assert_eq!(refused(feedcheck::cost(&register, &wide_plan(0)[..length])), (2, 4, 0));
    }
    assert_eq!(refused(feedcheck::cost(&register, &[wide_plan(0), vec![0]].concat())), (12, 4, 9));
    assert_eq!(refused(feedcheck::cost(&register, &[0x42, 0, 0, 0, 0, 0, 0, 0, 0])), (1, 4, 0));
}

/// Rows are of choices 0 to 31, and with more choices each of their entries may be any.
#[test]
fn rows() {
    let bytes = with(33, &[row(0, [0x80; 32])]);
    assert_eq!(feedcheck::register(&bytes).unwrap().row_entries[..33], [[-128; 32].as_slice(), &[0]].concat());
    let bytes = with(48, &[row(1, [1; 32])]);
    assert_eq!(refused(feedcheck::cost(&bytes, &wide_plan(1 << 32))), (15, 4, 0));
    assert_eq!(feedcheck::cost(&bytes, &wide_plan(1 << 31)), Ok(10));
    assert_eq!(feedcheck::cost(&bytes, &wide_plan(1 << 31 | 1 << 32 | 1 << 47)), Ok(10));
    assert_eq!(refused(feedcheck::cost(&bytes, &wide_plan(1 << 31 | 1 << 48))), (5, 4, 0));
    // With 31 choices the last entry is past them.
    let mut entries = [0; 32];
    entries[31] = 1;
    assert_eq!(refused(feedcheck::register(&with(31, &[row(0, entries)]))), (5, 1, front(31).len()));
    assert!(feedcheck::register(&with(32, &[row(0, entries)])).is_ok());
}

/// Feeding any other choice costs 100, so that the search leaves it. The plan that it finds feeds choice 47.
#[test]
fn search() {
    let mut terms: Vec<(u64, Vec<u8>)> = saving().into_iter().map(|term| (mask_of(&term), term)).collect();
    terms.extend((0..48).filter(|i| ![31, 32, 47].contains(i)).map(|i| (1 << i, wide(1 << i, 100))));
    terms.sort();
    let terms: Vec<Vec<u8>> = terms.into_iter().map(|(_, term)| term).collect();
    let found = feedcheck::search(&with(48, &terms), 10_000).unwrap();
    assert_eq!((found.plan, found.cost), (1 << 47, 6));
    assert_eq!(feedcheck::search(&with(48, &terms), found.visits), Ok(found));
    assert_eq!(refused(feedcheck::search(&with(48, &terms), found.visits - 1)), (14, 0, 0));
    // Just one of choices 0 to 31 is to be fed.
    let found = feedcheck::search(&with(48, &[&[row(1, [1; 32])][..], &terms].concat()), 10_000).unwrap();
    assert_eq!((found.plan, found.cost), (1 << 31, 9));
}

/// A job of 48 choices and 16 products, 64 variables: the product of choices 46 and 47 is in no split.
fn job(register: &[u8], plan: &[u8], certificate: &[u8]) -> Vec<u8> {
    [register, &scheme(), certificate, plan].concat()
}

fn scheme() -> Vec<u8> {
    let products = (31..47).flat_map(|l| [0x21, l, l + 1]);
    let splits = [[31, 31], [32, 32], [31, 32], [47, 47], [31, 47], [32, 47]];
    products.chain(splits.into_iter().flat_map(|[l, r]| [0x22, l, r])).chain([0x2F]).collect()
}

#[test]
fn jobs() {
    let register = with(48, &saving());
    let (mut table, mut buffer) = (table(), [0; feedcheck::MAX_PLAIN]);
    let count = feedcheck::plain(&register, &scheme(), &[], &mut buffer).unwrap();
    let certificate = &buffer[..count];
    let bound = feedcheck::check(&register, &scheme(), certificate, &[], &mut table).unwrap();
    assert!(bound <= 6 && table.iter().all(|&number| number != 77));
    assert_eq!(feedcheck::penalty(&register, &scheme(), &mut table), Ok(()));

    let mut tally = feedcheck::Tally::default();
    let mut run = |plan: &[u8]| feedcheck::job(&job(&register, plan, certificate), &mut table, 0, &mut tally);
    assert_eq!(run(&wide_plan(1 << 47)), Ok(Outcome { bound, cost: 6, gap: 6 - bound }));
    assert_eq!(run(&narrow_plan(1 << 31)), Ok(Outcome { bound, cost: 9, gap: 9 - bound }));
    let start = register.len() + scheme().len() + count;
    assert_eq!(refused(run(&wide_plan(1 << 48))), (5, 4, start));
    assert_eq!(refused(run(&wide_plan(0)[..8])), (2, 4, start));
    assert_eq!(refused(run(&[narrow_plan(0), vec![0; 4]].concat())), (12, 4, start + 5));
    assert_eq!(tally.pairs[0], feedcheck::Counters { accepted: 2, refused: 3 });
}

/// The lines of all choices, none of them fed but 31 and 47.
#[test]
fn lines() {
    let register = with(48, &saving());
    let (mut table, mut certificate, mut buffer) = (table(), [0; feedcheck::MAX_PLAIN], [0; feedcheck::MAX_LISTING]);
    let count = feedcheck::plain(&register, &scheme(), &[], &mut certificate).unwrap();
    let bound = feedcheck::check(&register, &scheme(), &certificate[..count], &[], &mut table).unwrap();
    let job = job(&register, &wide_plan(1 << 47 | 1 << 31), &certificate[..count]);
    let last = format!("B {bound} 13 {}\n", 13 - bound);

    let count = feedcheck::listing(&job, &mut table, &mut buffer).unwrap();
    let choices: String = (0..48).map(|i| format!("T {i} {} 0\n", i + 1)).collect();
    assert_eq!(String::from_utf8_lossy(&buffer[..count]), format!("{choices}F 32 0\nF 48 0\n{last}"));
    let count = feedcheck::supplier_listing(&job, &mut table, &mut buffer).unwrap();
    let choices: String = (0..48).map(|i| format!("C {i} {}\n", (i == 31 || i == 47) as u8)).collect();
    assert_eq!(String::from_utf8_lossy(&buffer[..count]), format!("{choices}{last}"));
}

/// Ranges are of choices 0 to 31 and stand beside terms of any; the plan comes before the certificate.
#[test]
fn ranges() {
    let register = with(48, &[range(1 << 31, -3, 5), wide(1 << 31 | 1 << 47, -7)]);
    let scheme = [0x22, 31, 31, 0x22, 31, 47, 0x2F];
    let (mut table, mut certificate) = (table(), [0; feedcheck::MAX_PLAIN]);
    for (fed, cost) in [(0, 10), (1 << 31, 15), (1 << 31 | 1 << 47, 8), (1 << 47, 10)] {
        assert_eq!(feedcheck::cost(&register, &wide_plan(fed)), Ok(cost));
        let count = feedcheck::plain(&register, &scheme, &wide_plan(fed), &mut certificate).unwrap();
        let bound = feedcheck::check(&register, &scheme, &certificate[..count], &wide_plan(fed), &mut table).unwrap();
        let job = [&register[..], &scheme, &wide_plan(fed), &certificate[..count]].concat();
        let outcome = feedcheck::job(&job, &mut table, 0, &mut feedcheck::Tally::default());
        assert_eq!(outcome, Ok(Outcome { bound, cost, gap: cost - bound }));
    }
}

/// A row times a choice that is in no row, and times a product of two such.
#[test]
fn row_forms() {
    let mut entries = [0; 32];
    (entries[0], entries[31]) = (5, 7);
    let register = with(48, &[row(2, entries)]);
    let scheme = [0x21, 46, 47, 0x2F];
    for variable in [47, 48] {
        let certificate =
            [&[0x30, 1, 0, 0, 0, 10, 0, 0, 0, 0, 0, 0, 0, 0x3B, 0, variable][..], &3i64.to_le_bytes(), &[0x3F]].concat();
        let mut table = table();
        assert_eq!(refused(feedcheck::check(&register, &scheme, &certificate, &[], &mut table)), (9, 3, 24));
        let place = variable as usize + 1;
        let expected = |i: usize, j: usize| match (i.min(j), i.max(j) == place) {
            (0, true) => -6,
            (1, true) => 15,
            (32, true) => 21,
            _ => 0,
        };
        assert!((0..2_500).all(|at| table[at] == expected(at / 50, at % 50)));
    }
}
