//! Tallies of several suppliers.

use feedcheck::{raw, Counters, Outcome, Refusal, Tally, SUPPLIERS, TABLE_NUMBERS};
use std::mem::{offset_of, size_of};

/// A job of one choice and no term, accepted if it feeds the choice or nothing.
fn job(fed: u8) -> Vec<u8> {
    let register = [0x10, 10, 0, 0, 0, 0x11, 4, 0, 0xE0, 1, 0x1F];
    let certificate = [0x30, 1, 0, 0, 0, 10, 0, 0, 0, 0, 0, 0, 0, 0x3F];
    [&register[..], &[0x2F], &certificate, &[0x40, fed, 0, 0, 0]].concat()
}

const OUTCOME: Outcome = Outcome { bound: 10, cost: 10, gap: 0 };
/// Its plan feeds a choice that is not there.
const BAD_PLAN: Refusal = Refusal { number: 5, part: 4, position: 26 };
const SHORT_TABLE: Refusal = Refusal { number: 11, part: 0, position: 0 };
const NO_SUPPLIER: Refusal = Refusal { number: 17, part: 0, position: 0 };

/// No two counters are equal.
fn unequal() -> Tally {
    let mut tally = Tally::default();
    for (k, pair) in tally.pairs.iter_mut().enumerate() {
        *pair = Counters { accepted: 1 + 2 * k as u32, refused: 1_000 - 2 * k as u32 };
    }
    tally
}

#[test]
fn only_that_pair_moves() {
    let mut table = vec![0; TABLE_NUMBERS];
    for supplier in 0..SUPPLIERS {
        let (mut tally, mut expected) = (unequal(), unequal());
        assert_eq!(feedcheck::job(&job(1), &mut table, supplier as u8, &mut tally), Ok(OUTCOME));
        expected.pairs[supplier].accepted += 1;
        assert_eq!(tally, expected);
        assert_eq!(feedcheck::job(&job(2), &mut table, supplier as u8, &mut tally), Err(BAD_PLAN));
        expected.pairs[supplier].refused += 1;
        assert_eq!(tally, expected);
    }
}

/// Before anything else: also where the table is short, and whatever the job is.
#[test]
fn no_such_supplier() {
    for supplier in SUPPLIERS as u8..=u8::MAX {
        for length in [TABLE_NUMBERS, TABLE_NUMBERS - 1, 0] {
            for job in [job(1), job(2), Vec::new()] {
                let (mut table, mut tally) = (vec![77; length], unequal());
                assert_eq!(feedcheck::job(&job, &mut table, supplier, &mut tally), Err(NO_SUPPLIER));
                assert_eq!(tally, unequal());
                assert!(table.iter().all(|&number| number == 77));
            }
        }
    }
    assert_eq!(NO_SUPPLIER.to_string(), "refusal 17: a supplier number is above 15");
    let answer = raw::job(&job(1), &mut vec![0; TABLE_NUMBERS], 16, unequal());
    assert_eq!((answer.bound, answer.cost, answer.gap, answer.tally), (0, 0, 0, unequal()));
}

#[test]
fn short_table_counts_as_refused() {
    for length in [TABLE_NUMBERS - 1, 0] {
        let (mut table, mut tally, mut expected) = (vec![77; length], unequal(), unequal());
        assert_eq!(feedcheck::job(&job(1), &mut table, 15, &mut tally), Err(SHORT_TABLE));
        expected.pairs[15].refused += 1;
        assert_eq!(tally, expected);
        assert!(table.iter().all(|&number| number == 77));
    }
}

/// A counter at the top stays, and the job is answered as usual; every other counter goes on by itself.
#[test]
fn at_the_top() {
    let mut table = vec![0; TABLE_NUMBERS];
    let mut tally = Tally::default();
    tally.pairs[3] = Counters { accepted: u32::MAX - 1, refused: 0 };
    tally.pairs[4] = Counters { accepted: 0, refused: u32::MAX };
    let mut expected = tally;
    // The first comes to the top, the second stays there.
    expected.pairs[3].accepted = u32::MAX;
    for _ in 0..2 {
        assert_eq!(feedcheck::job(&job(1), &mut table, 3, &mut tally), Ok(OUTCOME));
        assert_eq!(tally, expected);
    }
    assert_eq!(feedcheck::job(&job(2), &mut table, 3, &mut tally), Err(BAD_PLAN));
    assert_eq!(feedcheck::job(&job(2), &mut table, 4, &mut tally), Err(BAD_PLAN));
    assert_eq!(feedcheck::job(&job(1), &mut table, 4, &mut tally), Ok(OUTCOME));
    expected.pairs[3].refused = 1;
    expected.pairs[4].accepted = 1;
    assert_eq!(tally, expected);
}

/// Each pair is what the jobs of its supplier would give by themselves, and the sums are the counts of all jobs but those of
/// supplier 16.
#[test]
fn list_of_jobs() {
    let list = [(2, 1), (7, 2), (2, 0), (16, 1), (7, 1), (0, 2), (2, 3), (16, 2), (7, 3), (15, 1)];
    let run = |list: &[(u8, u8)]| {
        let (mut table, mut tally) = (vec![0; TABLE_NUMBERS], Tally::default());
        for &(supplier, fed) in list {
            let _ = feedcheck::job(&job(fed), &mut table, supplier, &mut tally);
        }
        tally
    };
    let tally = run(&list);
    for (supplier, pair) in tally.pairs.iter().enumerate() {
        let own: Vec<_> = list.into_iter().filter(|&(of, _)| of as usize == supplier).collect();
        assert_eq!(run(&own).pairs[supplier], *pair);
    }
    assert_eq!(tally.pairs[2], Counters { accepted: 2, refused: 1 });
    assert_eq!(tally.pairs[7], Counters { accepted: 1, refused: 2 });
    let sum = |count: fn(&Counters) -> u32| tally.pairs.iter().map(count).sum::<u32>();
    assert_eq!((sum(|pair| pair.accepted), sum(|pair| pair.refused)), (4, 4));
}

/// The places that docs/LINKING.md speaks of.
#[test]
fn record() {
    assert_eq!((size_of::<Counters>(), size_of::<Tally>(), size_of::<raw::JobAnswer>()), (8, 128, 168));
    assert_eq!(offset_of!(raw::JobAnswer, tally), 40);
}
