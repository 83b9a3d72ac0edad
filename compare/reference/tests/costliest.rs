//! What the costliest register must come to: its products of every shape, and that no register with as many terms of as many
//! choices each has more, of all registers with few choices and of random ones.

#[allow(dead_code)]
#[path = "../../src/generate.rs"]
mod generate;
#[allow(dead_code)]
#[path = "../../src/random.rs"]
mod random;

use generate::{register_commands, Size};
use random::Random;
use reference::register::{Register, Term};
use reference::scheme::{MAX_PRODUCTS, MAX_VARIABLES};
use reference::{builder, Refusal};
use std::collections::BTreeSet;

/// Every m and d that there is a register for.
fn shapes() -> Vec<(u32, u32)> {
    (3..=32).flat_map(|d| (1..=32 / d).map(move |m| (m, d))).collect()
}

/// The bytes of the costliest register.
fn costliest(m: u32, d: u32) -> Vec<u8> {
    let mut buffer = vec![0xAA; 300];
    let count = reference::costliest(m, d, &mut buffer).expect("a register of this shape");
    assert!(buffer[count..].iter().all(|&byte| byte == 0xAA));
    buffer.truncate(count);
    buffer
}

/// How many products the builder forms for a register, and whether it is then refused one more.
fn formed(part1: &[u8]) -> (usize, bool) {
    let register = reference::register(part1).expect("a register");
    let mut buffer = [0; 865];
    match reference::build(part1, &mut buffer) {
        Ok(count) => {
            let scheme = reference::scheme(part1, &buffer[..count]).expect("the scheme of the register");
            assert_eq!(count, 3 * scheme.products.len() + 3 * register.terms.len() + 1);
            (scheme.products.len(), false)
        }
        Err(refusal) => {
            assert_eq!((refusal.number, refusal.part), (10, 1));
            (MAX_PRODUCTS.min(MAX_VARIABLES - register.choices.len()), true)
        }
    }
}

#[test]
fn products() {
    let (shapes, longest) = (shapes(), (10, 3));
    for &(m, d) in &shapes {
        let bytes = costliest(m, d);
        assert!(bytes.len() <= costliest(longest.0, longest.1).len());
        let register = reference::register(&bytes).expect("an accepted register");
        assert_eq!((register.base, register.choices.len(), register.terms.len()), (0, (m * d) as usize, m as usize));
        let disjoint: u64 = register.terms.iter().map(|term| term.mask).sum();
        assert!(disjoint == register.all() && register.terms.iter().all(|term| term.mask.count_ones() == d));
        assert_eq!(formed(&bytes), ((m * (d - 2)) as usize, false), "{m} {d}");
        // `10`, `11`, `12` and `1F` alone.
        assert!(
            bytes == register_commands(&register).concat() && register.terms.iter().all(|term| term.low == 1 && !term.ranged)
        );
    }
    assert_eq!(costliest(longest.0, longest.1).len(), 246);
    println!("products of the costliest registers: {} agree", shapes.len());
}

/// m and d up to a few past the limits, products that would wrap, and what is left in a buffer.
#[test]
fn refused() {
    let wrapping = (3..=32).flat_map(|d: u64| (1..d).map(move |k| (((k << 32).div_ceil(d)) as u32, d as u32)));
    let exchanged = wrapping.clone().map(|(m, d)| (d, m));
    let ends = [0, 1, 3, 32, 33, 1 << 16, 1 << 30, 1 << 31, u32::MAX];
    let pairs = |all: &[u32]| all.iter().flat_map(|&m| all.iter().map(move |&d| (m, d))).collect::<Vec<_>>();
    let near = pairs(&(0..50).collect::<Vec<_>>());
    let shapes = shapes();
    let all: BTreeSet<_> = near.into_iter().chain(pairs(&ends)).chain(wrapping).chain(exchanged).collect();
    let others: Vec<_> = all.into_iter().filter(|shape| !shapes.contains(shape)).collect();
    for &(m, d) in &others {
        for length in [0, 29, 246, 300] {
            let mut buffer = vec![0xAA; length];
            assert_eq!(reference::costliest(m, d, &mut buffer), Err(Refusal { number: 18, part: 0, position: 0 }), "{m} {d}");
            assert!(buffer.iter().all(|&byte| byte == 0xAA));
        }
    }
    println!("shapes of no costliest register: {} agree", others.len());
}

/// The masks of at most d of n choices.
fn masks(n: usize, d: u32) -> Vec<u64> {
    (1..1 << n).filter(|mask: &u64| (1..=d).contains(&mask.count_ones())).collect()
}

/// Every set of at most m of these masks, rising.
fn sets(masks: &[u64], m: usize) -> Vec<Vec<u64>> {
    let mut all = vec![Vec::new()];
    let mut longest = 0;
    for _ in 0..m {
        let start = std::mem::replace(&mut longest, all.len());
        for at in start..longest {
            let last: u64 = all[at].last().copied().unwrap_or(0);
            let longer: Vec<_> =
                masks.iter().filter(|&&mask| mask > last).map(|&mask| [&all[at][..], &[mask]].concat()).collect();
            all.extend(longer);
        }
    }
    all
}

/// A register with these terms and the choices, windows and rows of another.
fn with_terms(other: &Register, masks: &[u64]) -> Register {
    Register { terms: masks.iter().map(|&mask| Term::known(mask, 1)).collect(), ..other.clone() }
}

/// All registers of few choices with few terms. Among those with as many choices as the costliest one some reach its count.
#[test]
fn all_small() {
    let mut count = 0;
    for (n, m, d) in [(5, 1, 3), (8, 1, 8), (10, 1, 5), (7, 2, 3), (6, 3, 3), (6, 2, 4), (7, 1, 7), (5, 2, 5)] {
        let front = reference::register(&costliest(1, n as u32)).unwrap();
        let most = m * (d as usize - 2);
        let mut reached = 0;
        for set in sets(&masks(n, d), m) {
            let built = builder::build(&with_terms(&front, &set)).expect("products enough");
            assert!(built.products.len() <= most, "{m} {d}: {set:?}");
            reached = reached.max(built.products.len());
            count += 1;
        }
        assert!(reached == most || n < m * d as usize, "{m} {d}");
    }
    println!("products of all small registers: {count} agree");
}

/// Masks of at most m terms of at most d choices: apart as far as there are choices, or overlapping, or of one half of the choices,
/// or each of one choice more than the one before.
fn any_masks(random: &mut Random, n: usize, m: usize, d: usize) -> Vec<u64> {
    let mut order: Vec<usize> = (0..n).collect();
    random.shuffle(&mut order);
    let kind = random.below(5);
    let mask = |choices: &[usize]| choices.iter().fold(0, |mask, choice| mask | 1 << choice);
    let mut masks: Vec<u64> = match kind {
        0 => order.chunks(d).take(m).map(mask).collect(),
        1 => (0..m).map(|t| mask(&order[..(t + 1).min(d).min(n)])).collect(),
        _ => (0..m)
            .map(|_| {
                if kind < 4 {
                    random.shuffle(&mut order);
                }
                let any = 1 + random.below(d);
                let degree = random.pick(&[d, d, d - 1, any]).min(n);
                mask(&order[random.below(n - degree + 1)..][..degree])
            })
            .collect(),
    };
    masks.sort();
    masks.dedup();
    masks
}

/// Registers with windows, rows, ranges and any length of the day, up to 48 choices, and at most m terms of at most d choices each.
#[test]
fn random_registers() {
    let mut random = Random(12);
    let shapes = shapes();
    let (mut below, mut reached, mut full) = (0, 0, 0);
    for _ in 0..20_000 {
        let size = random.pick(&[Size::Small, Size::Wide, Size::Middle, Size::Middle]);
        let whole = generate::whole(&mut random, size);
        let mut register = reference::register(&whole.parts[0].concat()).expect("a register");
        let n = register.choices.len();
        let (m, d) = random.pick(&shapes);
        let ranged = random.chance(30);
        let term = |mask| Term { ranged: ranged && mask < 1 << 32, ..Term::known(mask, 1) };
        register.terms = any_masks(&mut random, n, m as usize, d as usize).into_iter().map(term).collect();
        let (products, refused) = formed(&register_commands(&register).concat());
        let most = (m * (d - 2)) as usize;
        // Where it is refused 10 it needs one more than it has.
        assert!(products + refused as usize <= most, "{m} {d}: {register:?}");
        assert!(!refused || n + most > MAX_VARIABLES);
        below += (products < most && !refused) as u32;
        reached += (products == most) as u32;
        full += refused as u32;
    }
    assert!(below > 10_000 && reached > 3_000 && full > 500, "{below} {reached} {full}");
    println!("products of random registers: {} agree", below + reached + full);
}
