//! The names and sentences of the refusals, and the version, are those of the header; the names are those of the library's own code.

use feedcheck::Refusal;

const HEADER: &str = include_str!("../../../include/feedcheck.h");
const CODE: &str = include_str!("../../../crates/wire/src/refusals.rt");

macro_rules! named {
    ($($name:ident)*) => { [$((stringify!($name), Refusal::$name)),*] };
}

/// In the order of their numbers.
const NAMES: [(&str, u8); 18] = named! {
    NO_COMMAND CUT_SHORT TOO_MANY OUT_OF_RANGE NOT_THERE MISORDERED NOT_RISING SETS_UNFIT FALLS_SHORT NO_PRODUCT_LEFT TOO_SHORT
    PAST_END OUTSIDE_WINDOWS PAST_LIMIT MISFIT NONE_FITS UNKNOWN_SUPPLIER SHAPE_OUT_OF_RANGE
};

fn reason(number: u8) -> &'static str {
    Refusal { number, part: 0, position: 0 }.reason()
}

/// What stands between two texts, of which the first is there once.
fn between<'a>(text: &'a str, before: &str, after: &str) -> &'a str {
    assert_eq!(text.matches(before).count(), 1, "{before}");
    text.split_once(before).unwrap().1.split_once(after).unwrap().0
}

#[test]
fn numbers() {
    assert_eq!(NAMES.map(|(_, number)| number), std::array::from_fn(|k| k as u8 + 1));
    assert_eq!(feedcheck::ACCEPTED, 0);
    assert_eq!(between(HEADER, "    FEEDCHECK_ACCEPTED = ", ","), "0");
}

#[test]
fn header() {
    assert_eq!(HEADER.matches("    FEEDCHECK_REFUSED_").count(), NAMES.len());
    assert_eq!(HEADER.matches("    case FEEDCHECK_REFUSED_").count(), NAMES.len());
    for (name, number) in NAMES {
        let said = between(HEADER, &format!("    FEEDCHECK_REFUSED_{name} = "), "\n");
        assert_eq!(said.split([',', ' ']).next(), Some(number.to_string().as_str()), "{name}");
        let text = between(HEADER, &format!("    case FEEDCHECK_REFUSED_{name}:\n        return \""), "\";\n");
        assert_eq!(text, reason(number));
    }
    assert_eq!(between(HEADER, "    default:\n        return \"", "\";\n"), reason(feedcheck::ACCEPTED));
}

#[test]
fn code() {
    let lines = between(CODE, "pub enum Refusal {\n", "}").lines();
    let cases: Vec<String> = lines.filter(|line| !line.trim_start().starts_with("//")).map(upper).collect();
    assert_eq!(cases, NAMES.map(|(name, _)| name));
}

/// `NO_COMMAND` for a line `NoCommand = 1,`.
fn upper(case: &str) -> String {
    let mut name = String::new();
    for letter in case.trim_start().chars().take_while(|letter| letter.is_alphabetic()) {
        if letter.is_uppercase() && !name.is_empty() {
            name.push('_');
        }
        name.push(letter.to_ascii_uppercase());
    }
    name
}

#[test]
fn sentences() {
    let mut reasons = NAMES.map(|(_, number)| reason(number)).to_vec();
    reasons.sort();
    reasons.dedup();
    assert_eq!(reasons.len(), NAMES.len());
    for number in [0].into_iter().chain(19..=u8::MAX) {
        assert_eq!(reason(number), "no refusal");
        assert!(!reasons.contains(&reason(number)));
    }
}

#[test]
fn version() {
    let number = |name: &str| between(HEADER, &format!("#define FEEDCHECK_VERSION{name} "), "\n");
    assert_eq!(number(""), format!("\"{}\"", feedcheck::VERSION));
    assert_eq!(["_MAJOR", "_MINOR", "_PATCH"].map(number).join("."), feedcheck::VERSION);
}
