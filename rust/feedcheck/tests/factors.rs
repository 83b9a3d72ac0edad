//! Schemes with a factor.

use feedcheck::{raw, Refusal, MAX_FACTOR, TABLE_NUMBERS};
use std::mem::{offset_of, size_of};

/// Choices 0 and 1. Choice 0 costs 5, and both together save 5; product 2 is of both, its weight 5.
const REGISTER: [u8; 34] = [
    0x10, 0, 0, 0, 0, 0x11, 4, 0, 0xE0, 1, 0x11, 4, 0, 0xD0, 2, 0x12, 1, 0, 0, 0, 5, 0, 0, 0, 0x12, 3, 0, 0, 0, 0xFB, 0xFF, 0xFF,
    0xFF, 0x1F,
];
const PRODUCT: [u8; 3] = [0x21, 0, 1];
const SPLITS: [u8; 6] = [0x22, 0, 0, 0x22, 2, 2];

fn factor(factor: u16) -> Vec<u8> {
    [&[0x23][..], &factor.to_le_bytes()].concat()
}

/// The scheme with these bytes in front of it, and none where there are none.
fn scheme(front: &[u8]) -> Vec<u8> {
    [front, &PRODUCT, &SPLITS, &[0x2F]].concat()
}

fn refused(scheme: &[u8]) -> (u8, u8, usize) {
    let Refusal { number, part, position } = feedcheck::scheme(&REGISTER, scheme).unwrap_err();
    (number, part, position)
}

#[test]
fn said() {
    let without = feedcheck::scheme(&REGISTER, &scheme(&[])).unwrap();
    assert_eq!((without.factor, without.products, without.splits), (1, 1, 2));
    for said in [1, 2, 256, 999, MAX_FACTOR] {
        let record = feedcheck::scheme(&REGISTER, &scheme(&factor(said))).unwrap();
        assert_eq!(record, raw::Scheme { factor: said, ..without });
    }
    // A builder's scheme says none.
    let mut buffer = [0; feedcheck::MAX_BUILT];
    let count = feedcheck::build(&REGISTER, &mut buffer).unwrap();
    assert_eq!(feedcheck::scheme(&REGISTER, &buffer[..count]).unwrap().factor, 1);
}

#[test]
fn out_of_range() {
    for wrong in [0, MAX_FACTOR + 1, MAX_FACTOR.swap_bytes(), 0x8001, u16::MAX] {
        assert_eq!(refused(&scheme(&factor(wrong))), (4, 2, 0));
        assert_eq!(raw::scheme(&REGISTER, &scheme(&factor(wrong))).scheme.factor, 0);
    }
    // Cut off, where it would be out of range too.
    for cut in [1, 2] {
        assert_eq!(refused(&factor(2)[..cut]), (2, 2, 0));
        assert_eq!(refused(&factor(0)[..cut]), (2, 2, 0));
    }
    // Nothing behind it; the end behind it, with splits too few; a refusal behind it.
    assert_eq!(refused(&factor(2)), (2, 2, 3));
    assert_eq!(refused(&[factor(2), vec![0x2F]].concat()), (3, 2, 3));
    assert_eq!(refused(&[factor(2), vec![0x21, 1, 0]].concat()), (6, 2, 3));
}

/// Only the first command may be a `23`, whatever else is wrong with another one.
#[test]
fn place() {
    for other in [1, 2, MAX_FACTOR, 0] {
        let other = factor(other);
        assert_eq!(refused(&scheme(&[factor(2), other.clone()].concat())), (1, 2, 3));
        assert_eq!(refused(&[&PRODUCT[..], &other, &SPLITS, &[0x2F]].concat()), (1, 2, 3));
        assert_eq!(refused(&[&PRODUCT[..], &SPLITS, &other, &[0x2F]].concat()), (1, 2, 9));
        assert_eq!(refused(&[&PRODUCT[..], &other[..1]].concat()), (1, 2, 3));
        assert_eq!(refused(&[scheme(&[]), other].concat()), (12, 2, 10));
    }
}

/// The penalty form of a scheme, whose table has side 4.
fn form(register: &[u8], scheme: &[u8]) -> Vec<i64> {
    let mut table = vec![77; TABLE_NUMBERS];
    feedcheck::penalty(register, scheme, &mut table).unwrap();
    assert!(table[16..].iter().all(|&number| number == 77));
    table.truncate(16);
    table
}

/// The fillings of z_0, z_1 and z_2 that have the least value of a form, and that value.
fn least(form: &[i64]) -> (i64, Vec<[i64; 3]>) {
    let fillings: Vec<[i64; 3]> = (0..8).map(|filling| [2, 1, 0].map(|bit| filling >> bit & 1)).collect();
    let value = |&[a, b, c]: &[i64; 3]| {
        let y = [1, a, b, c];
        (0..16).map(|at| form[at] * y[at / 4] * y[at % 4]).sum::<i64>() / 2
    };
    let least = fillings.iter().map(value).min().unwrap();
    (least, fillings.into_iter().filter(|filling| value(filling) == least).collect())
}

#[test]
fn penalty() {
    // h = 5 z_0 - 5 z_2 + P (3 z_2 - 2 z_2 z_0 - 2 z_2 z_1 + z_0 z_1).
    let expected = |p: i64| [0, 5, 0, 3 * p - 5, 5, 0, p, -2 * p, 0, p, 0, -2 * p, 3 * p - 5, -2 * p, -2 * p, 0];
    assert_eq!(form(&REGISTER, &scheme(&[])), expected(5));
    for said in [1, 2, MAX_FACTOR] {
        assert_eq!(form(&REGISTER, &scheme(&factor(said))), expected(5 * said as i64));
    }
    // With factor 1 also a filling has the least value in which product 2 is 1 and choice 0 is not.
    let true_ones = [[0, 0, 0], [0, 1, 0], [1, 1, 1]];
    assert_eq!(least(&expected(5)), (0, vec![[0, 0, 0], [0, 1, 0], [0, 1, 1], [1, 1, 1]]));
    for said in [2, MAX_FACTOR] {
        assert_eq!(least(&form(&REGISTER, &scheme(&factor(said)))), (0, true_ones.to_vec()));
    }
    // A range from 0 gives product 2 no weight with any factor, so it may be 1 or 0.
    let range = [&REGISTER[..24], &[0x16, 3, 0, 0, 0, 0, 0, 0, 0, 5, 0, 0, 0, 0x1F]].concat();
    assert_eq!(least(&form(&range, &scheme(&factor(2)))).1, [[0, 0, 0], [0, 0, 1], [0, 1, 0], [0, 1, 1]]);
}

/// A factor changes nothing of certificates and jobs but the positions behind it.
#[test]
fn jobs() {
    let mut table = vec![0; TABLE_NUMBERS];
    let [one, heavy] = [scheme(&[]), scheme(&factor(MAX_FACTOR))];
    let written = [&one, &heavy].map(|scheme| {
        let mut buffer = [0; feedcheck::MAX_PLAIN];
        let count = feedcheck::plain(&REGISTER, scheme, &[], &mut buffer).unwrap();
        buffer[..count].to_vec()
    });
    assert_eq!(written[0], written[1]);
    let plan = [0x40, 3, 0, 0, 0];
    let mut answer = |scheme: &[u8], plan: &[u8]| {
        let job = [&REGISTER[..], scheme, &written[0], plan].concat();
        let answer = feedcheck::job(&job, &mut table, 0, &mut feedcheck::Tally::default());
        (answer, table.clone())
    };
    assert!(answer(&one, &plan).0.is_ok());
    assert_eq!(answer(&one, &plan), answer(&heavy, &plan));
    let start = REGISTER.len() + heavy.len() + written[0].len();
    assert_eq!(answer(&heavy, &plan[..4]).0, Err(Refusal { number: 2, part: 4, position: start }));
    let twice = scheme(&[factor(2), factor(2)].concat());
    assert_eq!(answer(&twice, &plan).0, Err(Refusal { number: 1, part: 2, position: REGISTER.len() + 3 }));
}

/// The factor stands behind all other fields, which are where they were.
#[test]
fn record() {
    assert_eq!((size_of::<raw::SchemeAnswer>(), size_of::<raw::Scheme>()), (616, 600));
    assert_eq!((offset_of!(raw::Scheme, split_rights), offset_of!(raw::Scheme, factor)), (336, 592));
}
