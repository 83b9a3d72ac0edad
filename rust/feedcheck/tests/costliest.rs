//! Costliest registers.

use feedcheck::{raw, Refusal, MAX_BUILT, MAX_COSTLIEST, MAX_TERMS};

/// Two terms of three choices each.
const TWO_OF_THREE: [u8; 54] = [
    0x10, 0, 0, 0, 0, 0x11, 1, 0, 0, 0, 0x11, 1, 0, 1, 0, 0x11, 1, 0, 2, 0, 0x11, 1, 0, 3, 0, 0x11, 1, 0, 4, 0, 0x11, 1, 0, 5, 0,
    0x12, 7, 0, 0, 0, 1, 0, 0, 0, 0x12, 0x38, 0, 0, 0, 1, 0, 0, 0, 0x1F,
];

const SHAPE: Refusal = Refusal { number: Refusal::SHAPE_OUT_OF_RANGE, part: 0, position: 0 };
const SHORT: Refusal = Refusal { number: Refusal::TOO_SHORT, part: 0, position: 0 };

/// Bytes on either side of a buffer.
const MARGIN: usize = 16;

/// The answer with a buffer of so many bytes, in which AA stood, and the buffer. The bytes on either side of it must stay.
fn lent(m: u32, d: u32, length: usize) -> (Result<usize, Refusal>, Vec<u8>) {
    let mut all = vec![0xAA; MARGIN + length + MARGIN];
    let answer = feedcheck::costliest(m, d, &mut all[MARGIN..MARGIN + length]);
    assert!(all[..MARGIN].iter().chain(&all[MARGIN + length..]).all(|&byte| byte == 0xAA));
    (answer, all[MARGIN..MARGIN + length].to_vec())
}

/// The bytes that are written.
fn bytes(m: u32, d: u32) -> Vec<u8> {
    let (answer, mut buffer) = lent(m, d, MAX_COSTLIEST);
    buffer.truncate(answer.unwrap());
    buffer
}

fn refused(m: u32, d: u32) {
    for length in [0, 1, MAX_COSTLIEST, 1_000] {
        assert_eq!(lent(m, d, length), (Err(SHAPE), vec![0xAA; length]), "{m} {d}");
    }
    let answer = raw::costliest(m, d, &mut []);
    assert_eq!(answer, raw::WriterAnswer { number: 18, part: 0, position: 0, count: 0 });
}

/// Every m and d that there is a register for.
fn shapes() -> Vec<(u32, u32)> {
    let all = (1..=32).flat_map(|m| (3..=32).map(move |d| (m, d)));
    all.filter(|(m, d)| m * d <= 32).collect()
}

#[test]
fn written() {
    assert_eq!(bytes(2, 3), TWO_OF_THREE);
    // All 32 choices in one term, and in the two halves.
    let (one, two) = (bytes(1, 32), bytes(2, 16));
    assert_eq!(one[..165], two[..165]);
    assert_eq!(one[160..], [0x11, 1, 0, 31, 0, 0x12, 0xFF, 0xFF, 0xFF, 0xFF, 1, 0, 0, 0, 0x1F]);
    assert_eq!(two[165..], [0x12, 0xFF, 0xFF, 0, 0, 1, 0, 0, 0, 0x12, 0, 0, 0xFF, 0xFF, 1, 0, 0, 0, 0x1F]);
}

/// As docs/LINKING.md prints it.
fn costliest_products(m: u32, d: u32) -> Result<usize, feedcheck::Refusal> {
    let (mut register, mut scheme) = ([0; feedcheck::MAX_COSTLIEST], [0; feedcheck::MAX_BUILT]);
    let register_length = feedcheck::costliest(m, d, &mut register)?;
    let register = &register[..register_length];
    let scheme_length = feedcheck::build(register, &mut scheme)?;
    Ok(feedcheck::scheme(register, &scheme[..scheme_length])?.products)
}

/// A register of each shape: what it has, how long it is, and how many products the builder forms for it.
#[test]
fn products() {
    let mut longest = 0;
    for (m, d) in shapes() {
        let (bytes, n) = (bytes(m, d), (m * d) as usize);
        assert_eq!(bytes.len(), 5 + 5 * n + 9 * m as usize + 1);
        longest = longest.max(bytes.len());
        let record = feedcheck::register(&bytes).unwrap();
        assert_eq!((record.base, record.day_length, record.choices, record.terms), (0, feedcheck::USUAL_DAY, n, m as usize));
        assert_eq!((record.windows, record.rows, record.ranged), (0, 0, [false; MAX_TERMS]));
        for i in 0..n {
            let term = i / d as usize;
            assert_eq!((record.tanks[i], record.minutes[i], record.masks[term] >> i & 1), (1, i as u16, 1));
        }
        let terms = &record.masks[..m as usize];
        assert!(terms.iter().all(|mask| mask.count_ones() == d) && record.coefficients[..m as usize].iter().all(|&c| c == 1));
        let products = (m * (d - 2)) as usize;
        assert_eq!(feedcheck::build(&bytes, &mut [0; MAX_BUILT]), Ok(3 * products + 3 * m as usize + 1));
        assert_eq!(costliest_products(m, d), Ok(products));
    }
    assert_eq!(costliest_products(11, 3), Err(SHAPE));
    assert_eq!((longest, bytes(10, 3).len()), (MAX_COSTLIEST, MAX_COSTLIEST));
}

/// Other terms of the same choices. A pair that the builder makes for both terms is one product, and a term of one choice takes none.
#[test]
fn shared_choices() {
    let built = |masks: [u32; 2]| {
        let term = |mask: u32| [&[0x12][..], &mask.to_le_bytes(), &[1, 0, 0, 0]].concat();
        let bytes = [&TWO_OF_THREE[..35], &masks.map(term).concat(), &[0x1F]].concat();
        let mut buffer = [0; MAX_BUILT];
        let count = feedcheck::build(&bytes, &mut buffer).unwrap();
        feedcheck::scheme(&bytes, &buffer[..count]).unwrap().products
    };
    assert_eq!(built([0b000111, 0b111000]), 2);
    assert_eq!(built([0b000111, 0b001011]), 1);
    assert_eq!(built([0b000111, 0b001110]), 2);
    assert_eq!(built([0b000001, 0b111000]), 1);
}

#[test]
fn buffers() {
    for (m, d) in shapes() {
        let whole = bytes(m, d);
        for length in [0, 1, whole.len() - 1] {
            assert_eq!(lent(m, d, length), (Err(SHORT), vec![0xAA; length]), "{m} {d}");
        }
        for more in [0, 1, 300] {
            assert_eq!(lent(m, d, whole.len() + more), (Ok(whole.len()), [&whole[..], &vec![0xAA; more]].concat()), "{m} {d}");
        }
    }
}

/// Every m and d up to a little past the limits, at the ends of their width, and such that a product of 32 bits would be small.
#[test]
fn out_of_range() {
    let shapes = shapes();
    let near = (0..=40).flat_map(|m| (0..=40).map(move |d| (m, d)));
    near.filter(|shape| !shapes.contains(shape)).for_each(|(m, d)| refused(m, d));
    for end in [33, 1 << 8, 1 << 16, 1 << 31, u32::MAX] {
        (0..=33).chain([end]).for_each(|other| {
            refused(end, other);
            refused(other, end);
        });
    }
    // 4 times the first is 2 to the power 32, 3 times the next is that and 2, and so on.
    for (m, d) in
        [(1_073_741_824, 4), (1_431_655_766, 3), (134_217_728, 32), (858_993_460, 5), (2_147_483_649, 4), (65_536, 65_536)]
    {
        assert!(u32::wrapping_mul(m, d) <= 32);
        refused(m, d);
        refused(d, m);
    }
    // With bits above the lowest 8 or 16.
    for (m, d) in [(257, 3), (65_537, 3), (1, 259), (1, 65_539), (258, 258)] {
        refused(m, d);
    }
}

#[test]
fn text() {
    assert_eq!(SHAPE.to_string(), "refusal 18: m is 0, d is below 3 or above 32, or m times d is above 32");
}
