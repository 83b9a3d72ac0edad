//! Registers of days of each length.

use feedcheck::{raw, LONG_DAY, SHORT_DAY, USUAL_DAY};
use std::mem::{offset_of, size_of};

const BASE: [u8; 5] = [0x10, 10, 0, 0, 0];
const TERM: [u8; 9] = [0x12, 1, 0, 0, 0, 0xFA, 0xFF, 0xFF, 0xFF];
const END: [u8; 1] = [0x1F];

fn command(byte: u8, operands: &[u16]) -> Vec<u8> {
    let bytes = operands.iter().flat_map(|operand| operand.to_le_bytes());
    std::iter::once(byte).chain(bytes).collect()
}

fn day(length: u16) -> Vec<u8> {
    command(0x18, &[length])
}

fn window(from: u16, to: u16) -> Vec<u8> {
    command(0x13, &[4, from, to])
}

fn choice(minute: u16) -> Vec<u8> {
    command(0x11, &[4, minute])
}

/// A register of these commands after `10`.
fn register(commands: &[Vec<u8>]) -> Vec<u8> {
    [&BASE[..], &commands.concat(), &END].concat()
}

fn refused(register: &[u8]) -> (u8, u8, usize) {
    let refusal = feedcheck::register(register).unwrap_err();
    (refusal.number, refusal.part, refusal.position)
}

#[test]
fn not_said() {
    let record = feedcheck::register(&register(&[choice(0), choice(USUAL_DAY - 1)])).unwrap();
    assert_eq!((record.base, record.day_length, record.choices), (10, USUAL_DAY, 2));
    assert_eq!(refused(&register(&[choice(0), choice(USUAL_DAY)])), (4, 1, 10));
    // The usual length, said or not, is the same record.
    let commands = [window(1, USUAL_DAY), choice(USUAL_DAY - 1), TERM.to_vec()].concat();
    let said = [day(USUAL_DAY), commands.clone()];
    assert_eq!(feedcheck::register(&register(&said)), feedcheck::register(&register(&[commands])));
}

#[test]
fn ends_of_days() {
    for length in [SHORT_DAY, USUAL_DAY, LONG_DAY] {
        let record = feedcheck::register(&register(&[day(length), choice(length - 2), choice(length - 1)])).unwrap();
        assert_eq!((record.day_length, record.choices), (length, 2));
        assert_eq!(record.minutes[..3], [length - 2, length - 1, 0]);
        assert_eq!(refused(&register(&[day(length), choice(0), choice(length)])), (4, 1, 13));

        let record = feedcheck::register(&register(&[day(length), window(length - 1, length), choice(length - 1)])).unwrap();
        assert_eq!((record.day_length, record.windows), (length, 1));
        assert_eq!((record.window_froms[0], record.window_tos[0]), (length - 1, length));
        assert_eq!(refused(&register(&[day(length), window(0, length + 1)])), (4, 1, 8));
        // "from" is out of range, and not below "to": 4 comes first.
        assert_eq!(refused(&register(&[day(length), window(length, length)])), (4, 1, 8));
    }
}

#[test]
fn other_lengths() {
    for length in [SHORT_DAY, USUAL_DAY, LONG_DAY].into_iter().flat_map(|length| [length - 1, length + 1]).chain([0, u16::MAX]) {
        let bytes = register(&[day(length), choice(0)]);
        assert_eq!(refused(&bytes), (4, 1, 5));
        let record = raw::register(&bytes).register;
        assert_eq!((record.base, record.day_length, record.choices), (0, 0, 0));
    }
}

#[test]
fn place() {
    for length in [USUAL_DAY, LONG_DAY, 0] {
        assert_eq!(refused(&[day(length), BASE.to_vec()].concat()), (1, 1, 0));
        assert_eq!(refused(&register(&[day(LONG_DAY), day(length), choice(0)])), (1, 1, 8));
        assert_eq!(refused(&register(&[window(0, 1), day(length), choice(0)])), (1, 1, 12));
        assert_eq!(refused(&register(&[choice(0), day(length)])), (1, 1, 10));
        assert_eq!(refused(&register(&[choice(0), TERM.to_vec(), day(length)])), (1, 1, 19));
    }
    // Straight before the end it is a command; that there is no choice is found at the end.
    assert_eq!(refused(&register(&[day(LONG_DAY)])), (3, 1, 8));
    // Cut off, of a length that is not allowed too.
    for length in [LONG_DAY, u16::MAX] {
        let bytes = register(&[day(length)]);
        assert_eq!([6, 7].map(|end| refused(&bytes[..end])), [(2, 1, 5), (2, 1, 5)]);
    }
}

/// The record is 0 on a refusal. The length stands where there was nothing, so that every other field is where it was.
#[test]
fn record() {
    let refused = raw::register(&register(&[day(LONG_DAY), choice(LONG_DAY)]));
    assert_eq!((refused.number, refused.part, refused.position), (4, 1, 8));
    assert_eq!((refused.register.base, refused.register.day_length, refused.register.choices), (0, 0, 0));
    assert_eq!((size_of::<raw::RegisterAnswer>(), size_of::<raw::Register>()), (5_256, 5_240));
    assert_eq!((offset_of!(raw::Register, day_length), offset_of!(raw::Register, choices)), (4, 8));
}

/// A job of a register that has one choice and no term, which feeds the choice.
fn job(register: &[u8]) -> Vec<u8> {
    let certificate = [0x30, 1, 0, 0, 0, 10, 0, 0, 0, 0, 0, 0, 0, 0x3F];
    [register, &[0x2F], &certificate, &[0x40, 1, 0, 0, 0]].concat()
}

#[test]
fn jobs() {
    let (mut table, mut buffer) = (vec![0; feedcheck::TABLE_NUMBERS], [0; feedcheck::MAX_LISTING]);
    let mut listed = |job: &[u8]| {
        let count = feedcheck::listing(job, &mut table, &mut buffer).unwrap();
        String::from_utf8_lossy(&buffer[..count]).into_owned()
    };
    assert_eq!(listed(&job(&register(&[day(LONG_DAY), choice(1_499)]))), "T 0 4 1499\nF 4 1499\nB 10 10 0\n");
    assert_eq!(listed(&job(&register(&[day(SHORT_DAY), choice(1_380)]))), "R 4 8\n");
    assert_eq!(listed(&job(&register(&[choice(1_380)]))), "T 0 4 1380\nF 4 1380\nB 10 10 0\n");
}

/// The longest register: 64 windows, 48 choices, 8 rows and 256 terms, each of one choice or of two, on a day whose length is said. One
/// term has a range, and the others stand in a `15`, which is as long.
fn longest_register() -> Vec<u8> {
    let windows = (0..64).flat_map(|w| command(0x13, &[9_999, w, LONG_DAY]));
    let choices = (0..48).flat_map(|i| command(0x11, &[9_999, LONG_DAY - 48 + i]));
    let range = [0x16, 1, 0, 0, 0, 1, 0, 0, 0, 2, 0, 0, 0];
    let wide = |[l, r]: [u8; 2]| [&[0x15][..], &(1u64 << l | 1 << r).to_le_bytes(), &1i32.to_le_bytes()].concat();
    let terms = range.into_iter().chain(splits().skip(1).flat_map(wide));
    let rows = [&[0x14][..], &[0; 34]].concat().repeat(8);
    register(&[day(LONG_DAY), windows.chain(choices).chain(rows).chain(terms).collect()])
}

/// The splits of its terms, in the order of their masks.
fn splits() -> impl Iterator<Item = [u8; 2]> {
    (0..48).flat_map(|r| std::iter::once([r, r]).chain((0..r).map(move |l| [l, r]))).take(256)
}

/// Its job with so many squares, the plan before the certificate. Every count but theirs is at its limit, that of products at the 16
/// that 48 choices leave variables for, the factor is said, and every multiplier is the longest command there is.
fn longest_job(squares: usize) -> Vec<u8> {
    let products = (0..16).flat_map(|l| [0x21, l, l + 1]);
    let scheme: Vec<u8> = command(0x23, &[1_000])
        .into_iter()
        .chain(products)
        .chain(splits().flat_map(|[l, r]| [0x22, l, r]))
        .chain([0x2F])
        .collect();
    let scale = [0x30, 1, 0, 0, 0, 0, 0, 0, 0, 0, 0, 0, 0];
    let multipliers = [0x34, 0, 1, 0, 1, 0, 0, 0, 0, 0, 0, 0, 0].repeat(1_024);
    let square = [&[0x3A, 1, 0, 0, 0][..], &[0; 130]].concat();
    let plan = [0x41, 1, 0, 0, 0, 0, 0, 0, 0];
    [&longest_register()[..], &scheme, &plan, &scale, &multipliers, &square.repeat(squares), &[0x3F]].concat()
}

#[test]
fn longest() {
    let record = feedcheck::register(&longest_register()).unwrap();
    assert_eq!((record.day_length, record.windows, record.choices), (LONG_DAY, 64, 48));
    assert_eq!((record.rows, record.terms), (8, 256));
    let mut table = vec![0; feedcheck::TABLE_NUMBERS];
    let mut refused = |job: &[u8]| {
        let refusal = feedcheck::job(job, &mut table, 0, &mut feedcheck::Tally::default()).unwrap_err();
        (refusal.number, refusal.part, refusal.position)
    };
    // 48 choices leave variables for 16 products. Right up to `3F`, where R falls short.
    assert_eq!(longest_job(64).len(), feedcheck::MAX_JOB);
    assert_eq!(refused(&longest_job(64)), (9, 3, 27_099));
    // The last byte of a 65th square is the last that can matter.
    let job = longest_job(65);
    assert_eq!(refused(&job), (3, 3, 27_099));
    assert_eq!(refused(&job[..feedcheck::MAX_JOB_READ]), (3, 3, 27_099));
    assert_eq!(refused(&job[..feedcheck::MAX_JOB_READ - 1]), (2, 3, 27_099));
}
