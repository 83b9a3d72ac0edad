//! Registers with windows.

/// Tank 4 has the windows 480 to 600 and 650 to 721, in which choices 0 and 1 are, at minutes 480 and 720. Tank 7, of choice 2,
/// has no window, and tank 9 has a window and no choice. The commands of the windows are at 5, 12 and 19, those of the choices at
/// 26, 31 and 36.
const REGISTER: [u8; 42] = [
    0x10, 10, 0, 0, 0, 0x13, 4, 0, 0xE0, 1, 0x58, 2, 0x13, 4, 0, 0x8A, 2, 0xD1, 2, 0x13, 9, 0, 0, 0, 0xA0, 5, 0x11, 4, 0, 0xE0,
    1, 0x11, 4, 0, 0xD0, 2, 0x11, 7, 0, 0xE0, 1, 0x1F,
];

/// The register with some bytes changed.
fn with(changes: &[(usize, u8)]) -> [u8; 42] {
    let mut register = REGISTER;
    for &(at, byte) in changes {
        register[at] = byte;
    }
    register
}

fn refused(register: &[u8]) -> (u8, u8, usize) {
    let refusal = feedcheck::register(register).unwrap_err();
    (refusal.number, refusal.part, refusal.position)
}

#[test]
fn accepted() {
    let register = feedcheck::register(&REGISTER).unwrap();
    assert_eq!((register.base, register.choices, register.terms, register.windows), (10, 3, 0, 3));
    assert_eq!(register.tanks[..4], [4, 4, 7, 0]);
    assert_eq!(register.minutes[..4], [480, 720, 480, 0]);
    assert_eq!(register.window_tanks[..3], [4, 4, 9]);
    assert_eq!(register.window_froms[..3], [480, 650, 0]);
    assert_eq!(register.window_tos[..3], [600, 721, feedcheck::USUAL_DAY]);
    for past in [&register.window_tanks[3..], &register.window_froms[3..], &register.window_tos[3..]] {
        assert_eq!(past, [0; 61]);
    }
}

#[test]
fn outside_the_windows() {
    // The first window begins at 481, and choice 0 is at 480.
    assert_eq!(refused(&with(&[(8, 0xE1)])), (13, 1, 26));
    // The second window ends before 720, the minute of choice 1.
    assert_eq!(refused(&with(&[(17, 0xD0)])), (13, 1, 31));
    // The third window is of tank 7 and begins at 512, and choice 2 is at 480; from 0 on it holds 480.
    assert_eq!(refused(&with(&[(20, 7), (23, 2)])), (13, 1, 36));
    assert_eq!(feedcheck::register(&with(&[(20, 7)])).unwrap().window_tanks[..3], [4, 4, 7]);

    let refusal = feedcheck::register(&with(&[(17, 0xD0)])).unwrap_err();
    assert_eq!(refusal.to_string(), "refusal 13 in part 1 at byte 31: a choice is outside its tank's windows");
    let record = feedcheck::raw::register(&with(&[(17, 0xD0)])).register;
    assert_eq!((record.base, record.choices, record.terms, record.windows), (0, 0, 0, 0));
    assert_eq!((record.tanks, record.minutes), ([0; feedcheck::MAX_CHOICES], [0; feedcheck::MAX_CHOICES]));
    for entries in [record.window_tanks, record.window_froms, record.window_tos] {
        assert_eq!(entries, [0; feedcheck::MAX_WINDOWS]);
    }
}

#[test]
fn window_refused() {
    // "to" 1,441, a minute more than the day has; "from" and "to" both 480; the second window begins at 480 as the first does.
    assert_eq!(refused(&with(&[(24, 0xA1)])), (4, 1, 19));
    assert_eq!(refused(&with(&[(10, 0xE0), (11, 1)])), (6, 1, 5));
    assert_eq!(refused(&with(&[(15, 0xE0), (16, 1)])), (7, 1, 12));
    // A window after a choice.
    assert_eq!(refused(&[&REGISTER[..41], &REGISTER[19..]].concat()), (1, 1, 41));
}

/// A register of windows 1,000 + w to the day's end, all of tank 9,999, and of one choice of that tank in the last minute.
fn many(windows: u16) -> Vec<u8> {
    let mut bytes = vec![0x10, 0, 0, 0, 0];
    for w in 0..windows {
        bytes.push(0x13);
        for number in [9_999, 1_000 + w, feedcheck::USUAL_DAY] {
            bytes.extend(number.to_le_bytes());
        }
    }
    bytes.extend([0x11, 0x0F, 0x27, 0x9F, 5, 0x1F]);
    bytes
}

#[test]
fn limit() {
    let register = feedcheck::register(&many(64)).unwrap();
    assert_eq!((register.windows, register.choices), (feedcheck::MAX_WINDOWS, 1));
    for w in 0..feedcheck::MAX_WINDOWS {
        let window = (register.window_tanks[w], register.window_froms[w], register.window_tos[w]);
        assert_eq!(window, (9_999, 1_000 + w as u16, feedcheck::USUAL_DAY));
    }
    assert_eq!(refused(&many(65)), (3, 1, 5 + 64 * 7));
}

/// A job of the register, which has no term: a scheme of no product and no split, a certificate whose target is the base cost, and
/// a plan that feeds choices 0 and 2.
fn job(register: &[u8]) -> Vec<u8> {
    let certificate = [0x30, 1, 0, 0, 0, 10, 0, 0, 0, 0, 0, 0, 0, 0x3F];
    [register, &[0x2F], &certificate, &[0x40, 5, 0, 0, 0]].concat()
}

#[test]
fn jobs() {
    let (mut table, mut buffer) = (vec![0; feedcheck::TABLE_NUMBERS], [0; feedcheck::MAX_LISTING]);
    let mut tally = feedcheck::Tally::default();
    let outcome = feedcheck::job(&job(&REGISTER), &mut table, 0, &mut tally);
    assert_eq!(outcome, Ok(feedcheck::Outcome { bound: 10, cost: 10, gap: 0 }));
    let refusal = feedcheck::job(&job(&with(&[(8, 0xE1)])), &mut table, 0, &mut tally).unwrap_err();
    assert_eq!((refusal.number, refusal.part, refusal.position), (13, 1, 26));
    assert_eq!(tally.pairs[0], feedcheck::Counters { accepted: 1, refused: 1 });

    let count = feedcheck::listing(&job(&REGISTER), &mut table, &mut buffer).unwrap();
    assert_eq!(&buffer[..count], b"T 0 4 480\nT 1 4 720\nT 2 7 480\nF 4 480\nF 7 480\nB 10 10 0\n");
    let count = feedcheck::listing(&job(&with(&[(8, 0xE1)])), &mut table, &mut buffer).unwrap();
    assert_eq!(&buffer[..count], b"R 13 26\n");
}
