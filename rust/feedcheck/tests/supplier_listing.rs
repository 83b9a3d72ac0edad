//! What a supplier may read.

use feedcheck::{Refusal, TABLE_NUMBERS};

/// A job with two windows, of tank, "from" and "to", and two choices, of tank and minute, of which just one is to be fed. The base
/// cost is -2, and feeding choice 1 costs 7.
fn job(windows: [[u16; 3]; 2], choices: [[u16; 2]; 2], fed: u8) -> Vec<u8> {
    let command = |byte: u8, operands: &[u16]| {
        let operands = operands.iter().flat_map(|operand| operand.to_le_bytes());
        std::iter::once(byte).chain(operands).collect::<Vec<u8>>()
    };
    let windows = windows.map(|window| command(0x13, &window)).concat();
    let choices = choices.map(|choice| command(0x11, &choice)).concat();
    let mut row = vec![0x14, 1, 0, 1, 1];
    row.resize(35, 0);
    let register =
        [&[0x10, 0xFE, 0xFF, 0xFF, 0xFF][..], &windows, &choices, &row, &[0x12, 2, 0, 0, 0, 7, 0, 0, 0, 0x1F]].concat();
    // s = 2 and T = -5. Of 2 (-2 + 7 z_1) + 5 the `38` leaves 1.
    let certificate = [0x30, 2, 0, 0, 0, 0xFB, 0xFF, 0xFF, 0xFF, 0xFF, 0xFF, 0xFF, 0xFF, 0x38, 1, 14, 0, 0, 0, 0, 0, 0, 0, 0x3F];
    [&register[..], &[0x22, 1, 1, 0x2F], &certificate, &[0x40, fed, 0, 0, 0]].concat()
}

const WINDOWS: [[u16; 3]; 2] = [[4, 480, 482], [7, 0, 1]];
const CHOICES: [[u16; 2]; 2] = [[4, 481], [5, 0]];

/// The answer of the supplier's listing, lent so many numbers and bytes, and the table and the buffer after it.
fn list(job: &[u8], numbers: usize, bytes: usize) -> (Result<usize, Refusal>, Vec<i64>, Vec<u8>) {
    let (mut table, mut buffer) = (vec![77; numbers], vec![0xAA; bytes]);
    let answer = feedcheck::supplier_listing(job, &mut table, &mut buffer);
    (answer, table, buffer)
}

/// Just these lines are written.
fn shown(job: &[u8], lines: &str) {
    let (answer, _, buffer) = list(job, TABLE_NUMBERS, lines.len() + 1);
    assert_eq!((answer, &buffer[..]), (Ok(lines.len()), [lines.as_bytes(), &[0xAA]].concat().as_slice()));
}

#[test]
fn lines() {
    shown(&job(WINDOWS, CHOICES, 1), "C 0 1\nC 1 0\nB -2 -2 0\n");
    shown(&job(WINDOWS, CHOICES, 2), "C 0 0\nC 1 1\nB -2 5 7\n");
}

/// Other tanks, minutes and windows: the same answer, table and buffer. The farm's listing shows that they are others.
#[test]
fn places_are_not_shown() {
    let one = job(WINDOWS, CHOICES, 2);
    let farm = |job: &[u8]| {
        let mut buffer = vec![0; feedcheck::MAX_LISTING];
        feedcheck::listing(job, &mut vec![0; TABLE_NUMBERS], &mut buffer).unwrap();
        buffer
    };
    for (windows, choices) in [
        ([[1, 0, 1_440], [9_999, 1_439, 1_440]], [[2, 0], [9_999, 1_439]]),
        ([[4, 0, 1], [4, 481, 483]], [[4, 482], [4_444, 1_111]]),
        (WINDOWS, [[5, 481], [5, 1_439]]),
    ] {
        let other = job(windows, choices, 2);
        for bytes in 20..30 {
            assert_eq!(list(&one, TABLE_NUMBERS, bytes), list(&other, TABLE_NUMBERS, bytes));
        }
        assert_ne!(farm(&one), farm(&other));
    }
}

/// The `R` line of the farm's listing: a choice outside its tank's windows, a plan that does not fit, a job that ends early.
#[test]
fn refused_jobs() {
    shown(&job(WINDOWS, [[4, 480], [7, 1]], 1), "R 13 24\n");
    shown(&job(WINDOWS, CHOICES, 3), "R 15 102\n");
    shown(&job(WINDOWS, CHOICES, 1)[..106], "R 2 102\n");
    shown(&[], "R 2 0\n");
}

const SHORT: Result<usize, Refusal> = Err(Refusal { number: 11, part: 0, position: 0 });

/// A short buffer is as it was lent; the table holds R, twice the 1 that is left at its first place.
#[test]
fn short_buffer() {
    let job = job(WINDOWS, CHOICES, 2);
    let enough = "C 0 0\nC 1 1\nB -2 5 7\n".len();
    for bytes in 0..enough {
        let (answer, table, buffer) = list(&job, TABLE_NUMBERS, bytes);
        assert_eq!((answer, buffer), (SHORT, vec![0xAA; bytes]));
        assert_eq!((table[0], &table[1..9], table[9]), (2, &[0; 8][..], 77));
    }
    assert_eq!(list(&job, TABLE_NUMBERS, enough).0, Ok(enough));
}

#[test]
fn short_table() {
    for numbers in [TABLE_NUMBERS - 1, 0] {
        for job in [job(WINDOWS, CHOICES, 2), Vec::new()] {
            assert_eq!(
                list(&job, numbers, feedcheck::MAX_LISTING),
                (SHORT, vec![77; numbers], vec![0xAA; feedcheck::MAX_LISTING])
            );
        }
    }
}
