//! The example of the scope through every call.

const REGISTER: [u8; 48] = [
    0x10, 10, 0, 0, 0, 0x11, 4, 0, 0xE0, 1, 0x11, 4, 0, 0xD0, 2, 0x11, 7, 0, 0xE0, 1, 0x12, 1, 0, 0, 0, 0xFA, 0xFF, 0xFF, 0xFF,
    0x12, 2, 0, 0, 0, 0xFC, 0xFF, 0xFF, 0xFF, 0x12, 7, 0, 0, 0, 5, 0, 0, 0, 0x1F,
];
const SCHEME: [u8; 16] = [0x21, 0, 1, 0x21, 2, 3, 0x22, 0, 0, 0x22, 1, 1, 0x22, 4, 4, 0x2F];
const CERTIFICATE: [u8; 44] = [
    0x30, 1, 0, 0, 0, 0, 0, 0, 0, 0, 0, 0, 0, 0x39, 0, 6, 0, 0, 0, 0, 0, 0, 0, 0x39, 1, 4, 0, 0, 0, 0, 0, 0, 0, 0x38, 4, 5, 0, 0,
    0, 0, 0, 0, 0, 0x3F,
];
const PLAN: [u8; 5] = [0x40, 3, 0, 0, 0];

#[test]
fn register() {
    let register = feedcheck::register(&REGISTER).unwrap();
    assert_eq!((register.base, register.day_length), (10, feedcheck::USUAL_DAY));
    assert_eq!((register.choices, register.terms), (3, 3));
    assert_eq!(register.tanks[..4], [4, 4, 7, 0]);
    assert_eq!(register.minutes[..4], [480, 720, 480, 0]);
    assert_eq!(register.masks[..4], [1, 2, 7, 0]);
    assert_eq!(register.coefficients[..4], [-6, -4, 5, 0]);
    assert_eq!((register.highs, register.ranged), (register.coefficients, [false; feedcheck::MAX_TERMS]));
}

#[test]
fn scheme() {
    let scheme = feedcheck::scheme(&REGISTER, &SCHEME).unwrap();
    assert_eq!((scheme.products, scheme.splits, scheme.factor), (2, 3, 1));
    assert_eq!((scheme.lefts[1], scheme.rights[1]), (2, 3));
    assert_eq!((scheme.split_lefts[2], scheme.split_rights[2]), (4, 4));
    let refusal = feedcheck::scheme(&REGISTER, &[0x21, 1, 0]).unwrap_err();
    assert_eq!((refusal.number, refusal.part, refusal.position), (6, 2, 0));
    assert_eq!(refusal.to_string(), "refusal 6 in part 2 at byte 0: a pair is misordered");
}

#[test]
fn build() {
    let mut buffer = [0xAA; 14];
    assert_eq!(feedcheck::build(&REGISTER, &mut buffer), Ok(13));
    assert_eq!(buffer, [0x21, 0, 1, 0x22, 0, 0, 0x22, 1, 1, 0x22, 2, 3, 0x2F, 0xAA]);
    let refusal = feedcheck::build(&REGISTER, &mut buffer[..12]).unwrap_err();
    assert_eq!(refusal.to_string(), "refusal 11: a lent table or buffer is short");
}

#[test]
fn cost() {
    assert_eq!(feedcheck::cost(&REGISTER, &PLAN), Ok(0));
}

#[test]
fn search() {
    let found = feedcheck::Found { plan: 3, cost: 0, visits: 9 };
    assert_eq!(feedcheck::search(&REGISTER, 9), Ok(found));
    assert_eq!(feedcheck::search(&REGISTER, u32::MAX), Ok(found));
    let refusal = feedcheck::search(&REGISTER, 8).unwrap_err();
    assert_eq!((refusal.number, refusal.part, refusal.position), (14, 0, 0));
    assert_eq!(refusal.to_string(), "refusal 14: the search takes more visits than its limit");
    let answer = feedcheck::raw::search(&REGISTER, 8);
    assert_eq!((answer.plan, answer.cost, answer.visits), (0, 0, 0));
    let refusal = feedcheck::search(&REGISTER[..47], 0).unwrap_err();
    assert_eq!((refusal.number, refusal.part, refusal.position), (2, 1, 47));
}

#[test]
fn penalty() {
    let mut table = vec![77; feedcheck::TABLE_NUMBERS];
    assert_eq!(feedcheck::penalty(&REGISTER, &SCHEME, &mut table), Ok(()));
    assert_eq!(table[..6], [20, -6, -4, 0, 15, 20]);
    assert_eq!(table[36], 77);
    assert_eq!(feedcheck::penalty(&REGISTER, &SCHEME, &mut table[1..]).unwrap_err().number, 11);
}

#[test]
fn check() {
    let mut table = vec![77; feedcheck::TABLE_NUMBERS];
    assert_eq!(feedcheck::check(&REGISTER, &SCHEME, &CERTIFICATE, &[], &mut table), Ok(0));
    assert!(table[..36].iter().all(|&number| number == 0));
    let mut higher = CERTIFICATE;
    higher[5] = 1;
    let refusal = feedcheck::check(&REGISTER, &SCHEME, &higher, &[], &mut table).unwrap_err();
    assert_eq!((refusal.number, refusal.part, refusal.position), (9, 3, 43));
    assert_eq!(table[0], -2);
}

#[test]
fn plain() {
    let mut scheme = [0; 13];
    feedcheck::build(&REGISTER, &mut scheme).unwrap();
    let mut buffer = [0; feedcheck::MAX_PLAIN];
    let count = feedcheck::plain(&REGISTER, &scheme, &[], &mut buffer).unwrap();
    let mut table = vec![0; feedcheck::TABLE_NUMBERS];
    assert_eq!(feedcheck::check(&REGISTER, &scheme, &buffer[..count], &[], &mut table), Ok(-6));
}

fn whole() -> Vec<u8> {
    [&REGISTER[..], &SCHEME, &CERTIFICATE, &PLAN].concat()
}

#[test]
fn job() {
    let mut table = vec![0; feedcheck::TABLE_NUMBERS];
    let mut tally = feedcheck::Tally::default();
    assert_eq!(feedcheck::job(&whole(), &mut table, 0, &mut tally), Ok(feedcheck::Outcome { bound: 0, cost: 0, gap: 0 }));
    let refusal = feedcheck::job(&[whole(), vec![0]].concat(), &mut table, 0, &mut tally).unwrap_err();
    assert_eq!((refusal.number, refusal.part, refusal.position), (12, 4, 113));
    assert_eq!(tally.pairs[0], feedcheck::Counters { accepted: 1, refused: 1 });
}

#[test]
fn listing() {
    let (mut table, mut buffer) = (vec![0; feedcheck::TABLE_NUMBERS], [0; feedcheck::MAX_LISTING]);
    let count = feedcheck::listing(&whole(), &mut table, &mut buffer).unwrap();
    assert_eq!(&buffer[..count], b"T 0 4 480\nT 1 4 720\nT 2 7 480\nF 4 480\nF 4 720\nB 0 0 0\n");
}

#[test]
fn supplier_listing() {
    let (mut table, mut buffer) = (vec![0; feedcheck::TABLE_NUMBERS], [0; feedcheck::MAX_LISTING]);
    let count = feedcheck::supplier_listing(&whole(), &mut table, &mut buffer).unwrap();
    assert_eq!(&buffer[..count], b"C 0 1\nC 1 1\nC 2 0\nB 0 0 0\n");
}
