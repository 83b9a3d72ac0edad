//! The search against the rule taken word for word, and against the costs of all plans, on random registers, some with rows, some with
//! ranges, whose lows count.

#[allow(dead_code)]
#[path = "../../src/random.rs"]
mod random;

use random::Random;
use reference::register::{Choice, Register, Row, Term, MAX_CHOICES, MAX_ROWS, ROW_ENTRIES, USUAL_DAY};
use reference::search::{search, word_for_word, NotFound};

/// A register of n choices and at most so many terms. Most have many plans of the same cost, or many sums that are a best cost.
fn register(random: &mut Random, n: usize, terms: usize) -> Register {
    let all = (1 << n) - 1;
    let thin = random.below(4);
    let mut masks: Vec<u64> = (0..random.below(terms + 1))
        .map(|_| (0..thin).fold(random.next(), |mask, _| mask & random.next()) & all)
        .filter(|&mask| mask != 0)
        .collect();
    if random.chance(20) {
        masks.push(all);
    }
    if random.chance(30) {
        masks.extend((0..n).map(|i| 1 << i));
    }
    masks.sort();
    masks.dedup();
    masks.truncate(256);
    let reach = random.pick(&[1, 1, 2, 5, 1_000_000]);
    let signs = random.pick(&[&[1, -1][..], &[1, -1], &[1], &[-1], &[1, 1, 1, -1]]);
    let term = |mask| Term::known(mask, random.within(1, reach) as i32 * random.pick(signs));
    let terms = masks.into_iter().map(term).collect();
    let choices = (1..=n as u16).map(|tank| Choice { tank, minute: 0 }).collect();
    let base = random.within(-1_000_000_000, 1_000_000_000) as i32;
    Register { base, day_length: USUAL_DAY, windows: Vec::new(), choices, rows: Vec::new(), terms }
}

/// Rows for a register of n choices: many plans fit, few, one, or none.
fn rows(random: &mut Random, n: usize) -> Vec<Row> {
    let fed = random.next();
    let count = random.pick(&[0, 1, 1, 1, 2, 2, 3, MAX_ROWS]);
    let row = |_| {
        let kinds = [&[1][..], &[0, 1], &[0, 1], &[-1, 1], &[0, 2, -2], &[1, 2, 3, 4], &[-128, -1, 0, 1, 127]];
        let values = random.pick(&kinds);
        let mut row = Row { total: 0, entries: [0; ROW_ENTRIES] };
        row.entries.iter_mut().take(n).for_each(|entry| *entry = random.pick(values));
        // The total of some plan, or one that may be no plan's.
        let near = if random.chance(15) { random.within(-1, 1) as i16 } else { 0 };
        row.total = (row.sum_of(fed) + near).clamp(-4_064, 4_064);
        row
    };
    (0..count).map(row).collect()
}

/// Makes some terms known within a range that begins where their coefficient was, or at 0.
fn ranges(random: &mut Random, register: &mut Register) {
    for term in &mut register.terms {
        if random.chance(60) {
            term.low = random.pick(&[term.low, term.low, term.low, 0]);
            term.high = random.within(term.low as i64, 1_000_000) as i32;
            term.ranged = true;
        }
    }
}

/// What a plan costs where each coefficient is the least that it may be.
fn low_cost(register: &Register, plan: u64) -> i64 {
    let fed = register.terms.iter().filter(|term| term.mask & !plan == 0);
    register.base as i64 + fed.map(|term| term.low as i64).sum::<i64>()
}

/// Whether a plan fits, said again.
fn fits(register: &Register, plan: u64) -> bool {
    let sum = |row: &Row| (0..ROW_ENTRIES).map(|j| (plan >> j & 1) as i64 * row.entries[j] as i64).sum::<i64>();
    register.rows.iter().all(|row| sum(row) == row.total as i64)
}

#[test]
fn of_all_plans() {
    let mut random = Random(1);
    let (mut with_rows, mut none) = (0, 0);
    for case in 0..6_000 {
        let n = 1 + case % 12;
        let mut register = register(&mut random, n, 40);
        if case % 2 == 1 {
            register.rows = rows(&mut random, n);
        }
        if case % 3 == 1 {
            ranges(&mut random, &mut register);
        }
        let found = search(&register, u32::MAX);
        assert_eq!(found, word_for_word(&register, u32::MAX), "{register:?}");
        // Of equal costs `min` takes the smaller plan.
        let plans = (0..1 << n).filter(|&plan| fits(&register, plan));
        let least = plans.map(|plan| (low_cost(&register, plan), plan)).min();
        let answer = least.map(|_| found.expect("a plan that fits"));
        assert_eq!(answer.map(|found| (found.cost, found.plan)), least, "{register:?}");
        // Where no plan fits nothing is left, and the visits are all that there are.
        let visits = answer.map_or((2 << n) - 1, |found| found.visits);
        assert!(visits < 2 << n, "{register:?}");
        for search in [search, word_for_word] {
            assert_eq!(search(&register, visits), answer.ok_or(NotFound::NoneFits));
            assert_eq!(search(&register, visits - 1), Err(NotFound::PastLimit));
            assert_eq!(search(&register, 0), Err(NotFound::PastLimit));
        }
        with_rows += !register.rows.is_empty() as u32;
        none += least.is_none() as u32;
    }
    assert!(with_rows > 2_000 && none > 200, "{with_rows} with rows, {none} that no plan fits");
}

#[test]
fn larger() {
    let mut random = Random(2);
    let mut ended = 0;
    for case in 0..800 {
        let n = 13 + random.below(MAX_CHOICES - 12);
        let mut register = register(&mut random, n, 256);
        if case % 3 == 0 {
            register.rows = rows(&mut random, register.choices.len());
        }
        if case % 4 == 1 {
            ranges(&mut random, &mut register);
        }
        let limit = random.pick(&[100, 1_000, 20_000]);
        let found = search(&register, limit);
        assert_eq!(found, word_for_word(&register, limit), "{register:?}");
        ended += (found != Err(NotFound::PastLimit)) as u32;
        if let Ok(found) = found {
            assert!(fits(&register, found.plan));
            assert_eq!(low_cost(&register, found.plan), found.cost);
            assert_eq!(search(&register, found.visits), Ok(found));
            assert_eq!(search(&register, found.visits - 1), Err(NotFound::PastLimit));
        }
    }
    assert!(ended > 50, "{ended} of 800 within the limit");
}

/// A mask of the choices that have these numbers among others.
fn moved(mask: u64, numbers: &[usize]) -> u64 {
    numbers.iter().enumerate().filter(|(i, _)| mask & 1 << i != 0).map(|(_, number)| 1 << number).sum()
}

/// A register of few choices, which stand among others, in all more than 32. Each of the others has a term by itself, so dear that
/// it is not fed, or so cheap that it is. The search finds the cheapest of all plans of the few choices.
#[test]
fn among_others() {
    const DEAR: i32 = 1_000_000;
    let mut random = Random(3);
    let (mut with_ranges, mut upper) = (0, 0);
    for case in 0..2_000 {
        let few = 1 + case % 8;
        let mut own = register(&mut random, few, 40);
        if own.terms.iter().any(|term| term.low.abs() > 5) {
            continue;
        }
        if random.chance(40) {
            ranges(&mut random, &mut own);
        }
        let n = random.within(33, MAX_CHOICES as i64) as usize;
        let mut numbers: Vec<usize> = (0..n).collect();
        random.shuffle(&mut numbers);
        let mut others = numbers.split_off(few);
        numbers.sort();
        let fed = others.split_off(others.len() - random.below(3));
        let mut terms: Vec<Term> = own.terms.iter().map(|term| Term { mask: moved(term.mask, &numbers), ..*term }).collect();
        terms.extend(others.iter().map(|i| Term::known(1 << i, DEAR)));
        terms.extend(fed.iter().map(|i| Term::known(1 << i, -DEAR)));
        terms.sort_by_key(|term| term.mask);
        let choices = (1..=n as u16).map(|tank| Choice { tank, minute: 0 }).collect();
        let register = Register { choices, terms, ..own.clone() };

        let found = search(&register, u32::MAX).unwrap();
        assert_eq!(word_for_word(&register, u32::MAX), Ok(found), "{register:?}");
        let (cost, plan) = (0..=own.all()).map(|plan| (low_cost(&own, plan), plan)).min().unwrap();
        let plan = moved(plan, &numbers) | fed.iter().map(|i| 1 << i).sum::<u64>();
        let cost = cost - DEAR as i64 * fed.len() as i64;
        assert_eq!((found.plan, found.cost), (plan, cost), "{register:?}");
        assert_eq!(search(&register, found.visits), Ok(found));
        assert_eq!(search(&register, found.visits - 1), Err(NotFound::PastLimit));
        with_ranges += register.has_range() as u32;
        upper += (plan >> 32 != 0) as u32;
    }
    assert!(with_ranges > 200 && upper > 500, "{with_ranges} with ranges, {upper} that feed a choice from 32 on");
}

/// Choice 32 saves something, and just one choice of those that are in the row is fed, the cheapest: 0, or else 1.
#[test]
fn in_no_row() {
    for (first, plan) in [(1, 1 << 32 | 0b01), (0, 1 << 32 | 0b10)] {
        let choices = (1..=33).map(|tank| Choice { tank, minute: 0 }).collect();
        let terms = (0..33).map(|i| Term::known(1 << i, if i < 32 { 5 + i } else { -1 })).collect();
        let mut row = Row { total: 1, entries: [1; ROW_ENTRIES] };
        row.entries[0] = first;
        let register = Register { base: 0, day_length: USUAL_DAY, windows: Vec::new(), choices, rows: vec![row], terms };
        let found = search(&register, u32::MAX).unwrap();
        assert_eq!((found.plan, found.cost), (plan, 5 - first as i64));
        assert_eq!(word_for_word(&register, u32::MAX), Ok(found));
    }
}

/// Each plan is cheaper than all before it, so that none is left: as many visits as there can be.
#[test]
fn no_branch_left() {
    for n in 1..=16 {
        let choices = (1..=n as u16).map(|tank| Choice { tank, minute: 0 }).collect();
        let terms = (0..n).map(|i| Term::known(1 << i, -(1 << i))).collect();
        let register = Register { base: 0, day_length: USUAL_DAY, windows: Vec::new(), choices, rows: Vec::new(), terms };
        let found = search(&register, u32::MAX).unwrap();
        assert_eq!((found.plan, found.cost, found.visits), (register.all(), -(register.all() as i64), (2 << n) - 1));
    }
}

/// Nothing is left before a plan that fits is met: here the first is the last plan of all, though every other is cheaper.
#[test]
fn last_plan_fits() {
    for n in 1..=16 {
        let choices = (1..=n as u16).map(|tank| Choice { tank, minute: 0 }).collect();
        let terms = (0..n).map(|i| Term::known(1 << i, 1 << i)).collect();
        let mut row = Row { total: n as i16, entries: [0; ROW_ENTRIES] };
        row.entries[..n as usize].fill(1);
        let register = Register { base: 0, day_length: USUAL_DAY, windows: Vec::new(), choices, rows: vec![row], terms };
        let found = search(&register, u32::MAX).unwrap();
        assert_eq!((found.plan, found.cost, found.visits), (register.all(), register.all() as i64, (2 << n) - 1));
    }
}
