//! What a penalty form with a factor must come to, on random registers of few choices and their schemes, over all fillings.

#[allow(dead_code)]
#[path = "../../src/generate.rs"]
mod generate;
#[allow(dead_code)]
#[path = "../../src/random.rs"]
mod random;

use generate::Size;
use random::Random;
use reference::register::Register;
use reference::scheme::{self, Scheme, MAX_FACTOR};
use reference::table::NUMBERS;

/// More would make too many fillings.
const MOST_VARIABLES: usize = 9;

/// The numbers of the penalty form of a scheme that says this factor.
fn form(part1: &[u8], part2: &[u8], factor: u16) -> Vec<i64> {
    let mut table = vec![0; NUMBERS];
    let said = [&[0x23][..], &factor.to_le_bytes(), part2].concat();
    assert_eq!(reference::penalty(part1, &said, &mut table), Ok(()));
    table
}

/// The value of a form at a filling, whose bit i is z_i: half the sum of the numbers, each times the factors of row and column.
fn value(table: &[i64], variables: usize, filling: u64) -> i64 {
    let side = variables + 1;
    let places: Vec<usize> = (0..side).filter(|&place| (filling << 1 | 1) & 1 << place != 0).collect();
    let sum: i64 = places.iter().flat_map(|row| places.iter().map(move |column| table[row * side + column])).sum();
    sum / 2
}

/// Whether the variable is the product or leads down to it.
fn leads_to(scheme: &Scheme, variable: usize, product: usize) -> bool {
    let down = |(l, r)| leads_to(scheme, l, product) || leads_to(scheme, r, product);
    variable == product || variable >= scheme.choices && down(scheme.operands(variable))
}

/// The weight of a product without a factor, said again.
fn weight(register: &Register, scheme: &Scheme, product: usize) -> i64 {
    let splits = scheme.splits.iter();
    let using = splits.map(|&(l, r)| leads_to(scheme, l, product) || leads_to(scheme, r, product));
    register.terms.iter().zip(using).filter(|(_, uses)| *uses).map(|(term, _)| (term.low as i64).abs()).sum()
}

/// The cost of a plan with the lows.
fn low_cost(register: &Register, plan: u64) -> i64 {
    let fed = register.terms.iter().filter(|term| term.mask & !plan == 0);
    register.base as i64 + fed.map(|term| term.low as i64).sum::<i64>()
}

#[test]
fn least_values() {
    let mut random = Random(11);
    // Forms, those with a weight above 0, and those in which a least filling has such a product that is not that of its operands.
    let (mut forms, mut weighted, mut untrue) = (0, 0, 0);
    for _ in 0..5_000 {
        let whole = generate::whole(&mut random, Size::Small);
        let [part1, part2, ..] = whole.parts.each_ref().map(|part| part.concat());
        let (Ok(register), Ok(scheme)) = (reference::register(&part1), reference::scheme(&part1, &part2)) else { continue };
        let (n, count) = (scheme.choices, scheme.variables());
        if count > MOST_VARIABLES {
            continue;
        }
        let fits = |plan: u64| register.rows.iter().all(|row| row.sum_of(plan) == row.total);
        let fitting: Vec<u64> = (0..1 << count).filter(|filling| fits(filling & register.all())).collect();
        if fitting.is_empty() {
            continue;
        }
        let least_cost = fitting.iter().map(|filling| low_cost(&register, filling & register.all())).min().unwrap();
        let weights: Vec<i64> = (n..count).map(|k| weight(&register, &scheme, k)).collect();
        let [one, two] = [1, 2].map(|factor| form(&part1, &part2, factor));
        let any = random.within(3, MAX_FACTOR as i64) as u16;
        for factor in [1, 2, any, MAX_FACTOR] {
            let table = form(&part1, &part2, factor);
            let more = factor as i64 - 1;
            assert!((0..NUMBERS).all(|at| table[at] == one[at] + more * (two[at] - one[at])), "factor {factor}: {register:?}");
            let with_factor = Scheme { factor, ..scheme.clone() };
            let all: Vec<i64> = weights.iter().map(|weight| factor as i64 * weight).collect();
            assert_eq!(scheme::weights(&register, &with_factor), all);
            let values = || fitting.iter().map(|&filling| (filling, value(&table, count, filling)));
            let least = values().map(|(_, value)| value).min().unwrap();
            assert_eq!(least, least_cost, "factor {factor}: {register:?}");
            let bit = |filling: u64, variable: usize| filling >> variable & 1;
            let mut all_true = true;
            for (filling, _) in values().filter(|(_, value)| *value == least) {
                assert_eq!(low_cost(&register, filling & register.all()), least, "factor {factor}: {register:?}");
                all_true &= (n..count).zip(&weights).all(|(k, &weight)| {
                    let (l, r) = scheme.operands(k);
                    weight == 0 || bit(filling, k) == bit(filling, l) * bit(filling, r)
                });
            }
            assert!(all_true || factor == 1, "factor {factor}: {register:?}");
            forms += 1;
            weighted += weights.iter().any(|&weight| weight > 0) as u32;
            untrue += !all_true as u32;
        }
    }
    assert!(forms > 5_000 && weighted > 2_000 && untrue > 50, "{forms} {weighted} {untrue}");
    println!("least values of penalty forms with a factor: {forms} agree");
}
