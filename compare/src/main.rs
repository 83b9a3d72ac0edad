//! Compares the proved library with the reference on generated inputs: every field of every answer, every number of a lent table
//! and every byte of a lent buffer, and what lies on either side of them.
//!
//!     compare [COUNT [SEED [FOLDER..]]]
//!
//! The folders have jobs, `*.job`, of which a part of the inputs is made. Exit status 1: a difference, or a refusal number that
//! the scope gives a call or a command and that no input led to, or a length of the day or a number of rows that no accepted
//! register had, or no accepted certificate with `3B`, or a supplier of whom no job was accepted or none refused, or something else
//! that `report_wide`, `report_factors`, `report_ranges`, `report_suppliers`, `report_listings` or `report_costliest` asks for.

use compare::generate::{input, seed, shape, with_other_places, Input, Whole};
use compare::random::Random;
use feedcheck::raw;
use reference::plan::FEEDS_NONE;
use reference::register::{Register, Term, LONG_DAY, MAX_CHOICES, MAX_COEFFICIENT, MAX_ROWS, ROW_ENTRIES, SHORT_DAY, USUAL_DAY};
use reference::scheme::{Scheme, MAX_FACTOR, MAX_PRODUCTS, MAX_VARIABLES};
use reference::search::Found;
use reference::table::NUMBERS as TABLE_NUMBERS;
use reference::{Answer, Counters, Refusal, Tally, SUPPLIERS};
use std::collections::{BTreeMap, BTreeSet};

/// Each call, with the refusal numbers that the scope gives it.
const CALLS: [(&str, &[u8]); 12] = [
    ("register", &[1, 2, 3, 4, 5, 6, 7, 12, 13]),
    ("scheme", &[1, 2, 3, 4, 5, 6, 7, 8, 12, 13]),
    ("build", &[1, 2, 3, 4, 5, 6, 7, 10, 11, 12, 13]),
    ("cost", &[1, 2, 3, 4, 5, 6, 7, 12, 13, 15]),
    ("search", &[1, 2, 3, 4, 5, 6, 7, 12, 13, 14, 16]),
    ("penalty", &[1, 2, 3, 4, 5, 6, 7, 8, 11, 12, 13]),
    ("check", &[1, 2, 3, 4, 5, 6, 7, 8, 9, 11, 12, 13, 15]),
    ("plain", &[1, 2, 3, 4, 5, 6, 7, 8, 11, 12, 13, 15]),
    ("job", &[1, 2, 3, 4, 5, 6, 7, 8, 9, 11, 12, 13, 15, 17]),
    ("listing", &[11]),
    ("supplier_listing", &[11]),
    ("costliest", &[11, 18]),
];

/// A listing call.
type Listing<A> = fn(&[u8], &mut [i64], &mut [u8]) -> A;

/// The numbers of an answer: 0, and the refusals 1 to 18.
const NUMBERS: usize = 19;

/// Each command, by its part and byte, with the refusal numbers that the scope gives it there; 1 where it stands out of place.
const COMMANDS: [(u8, u8, &[u8]); 31] = [
    (1, 0x10, &[1, 2, 4]),
    (1, 0x11, &[1, 2, 3, 4, 7, 13]),
    (1, 0x12, &[1, 2, 3, 4, 5, 7]),
    (1, 0x13, &[1, 2, 3, 4, 6, 7]),
    (1, 0x14, &[1, 2, 3, 4, 5]),
    (1, 0x15, &[1, 2, 3, 4, 5, 7]),
    (1, 0x16, &[1, 2, 3, 4, 5, 6, 7]),
    (1, 0x18, &[1, 2, 4]),
    (1, 0x1F, &[1, 3]),
    (1, 0x23, &[1]),
    (2, 0x21, &[1, 2, 3, 5, 6, 8]),
    (2, 0x22, &[2, 3, 5, 6, 8]),
    (2, 0x23, &[1, 2, 4]),
    (2, 0x2F, &[3]),
    (3, 0x23, &[1]),
    (3, 0x30, &[1, 2, 4]),
    (3, 0x31, &[1, 2, 3, 4, 5]),
    (3, 0x32, &[1, 2, 3, 4, 5, 8]),
    (3, 0x33, &[1, 2, 3, 4, 5, 6, 8]),
    (3, 0x34, &[1, 2, 3, 4, 5, 6, 8]),
    (3, 0x35, &[1, 2, 3, 4, 5]),
    (3, 0x36, &[1, 2, 3, 4, 5]),
    (3, 0x37, &[1, 2, 3, 4, 5]),
    (3, 0x38, &[1, 2, 3, 4, 5]),
    (3, 0x39, &[1, 2, 3, 4, 5]),
    (3, 0x3A, &[1, 2, 3, 4, 5]),
    (3, 0x3B, &[1, 2, 3, 4, 5]),
    (3, 0x3F, &[1, 9]),
    (4, 0x23, &[1]),
    (4, 0x40, &[2, 5, 15]),
    (4, 0x41, &[2, 5, 15]),
];

/// The lengths of the day, and whether `18` says them.
const DAYS: [(u16, bool); 4] = [(USUAL_DAY, false), (SHORT_DAY, true), (USUAL_DAY, true), (LONG_DAY, true)];

/// For calls on a register with a range, by the part that is refused, 0 where it is none: the numbers that the scope gives them there.
/// A plan that stands before a certificate is never refused 12 in a job.
const WITH_RANGE: [(&str, u8, &[u8]); 8] = [
    ("check", 0, &[0]),
    ("check", 3, &[1, 2, 3, 4, 5, 6, 8, 9, 12]),
    ("check", 4, &[1, 2, 5, 12, 15]),
    ("plain", 0, &[0, 11]),
    ("plain", 4, &[1, 2, 5, 12, 15]),
    ("job", 0, &[0]),
    ("job", 3, &[1, 2, 3, 4, 5, 6, 8, 9, 12]),
    ("job", 4, &[1, 2, 5, 15]),
];

/// What an accepted register may be that has more than 32 choices or says a term by `15`.
const WIDE_REGISTERS: [&str; 8] = [
    "more than 32 choices",
    "48 choices",
    "more than 32 choices and a range",
    "more than 32 choices and rows",
    "a 15 that a 12 could say",
    "a 12 or a 16 after such a 15",
    "a mask of 2^32 or more",
    "a mask of choices from 32 on alone",
];

/// The same of an accepted job.
const WIDE_JOBS: [&str; 5] = [
    "a 41",
    "a 41 that a 40 could say",
    "a plan of 2^32 or more",
    "more than 32 choices and rows",
    "more than 32 choices and a range",
];

/// What a scheme of more than 32 choices comes to, for which there are fewer than 32 products.
const FEW_PRODUCTS: [&str; 3] = ["21 refused 3", "built, all products needed", "build refused 10"];

/// The factor of an accepted scheme.
const FACTORS: [&str; 5] = ["1, not said", "1, said", "2", "the largest", "another"];

/// What else there is with a factor that is said.
const WITH_FACTOR: [&str; 3] =
    ["penalty forms made, factor 2 or more and a weight above 0", "accepted certificates", "accepted jobs"];

/// Where a `23` is refused 1 in part 2.
const OUT_OF_PLACE: [&str; 4] = ["a second one", "after 21", "after 22", "cut off"];

/// What a range may be.
const RANGES: [&str; 7] =
    ["one number", "from 0", "up to 0", "0 alone", "about 0", "from the lower limit", "up to the upper limit"];

/// What a job refused 17 would be of a supplier that is there.
const NOT_THERE: [&str; 3] = ["accepted otherwise", "refused otherwise", "lent a short table"];

/// The jobs of a list that have one tally.
const LIST: usize = 20;

/// The longest costliest register, and how many shapes there are one for.
const MAX_COSTLIEST: usize = 246;
const SHAPES: usize = 71;

/// Why there is no costliest register of a shape.
const NO_SHAPE: [&str; 6] = [
    "no terms",
    "fewer than three choices each",
    "more than 32 choices each",
    "more than 32 choices in all",
    "a product that wraps to 32 or less",
    "an empty buffer",
];

/// How many products the builder formed for a register of few terms of few choices each, beside the costliest one.
const BESIDE: [&str; 3] = ["fewer", "as many", "one too many, refused 10"];

/// The buffer that is lent for the lines of an accepted job, or for a costliest register that there is.
const ROOMS: [&str; 4] = ["too short by more", "too short by one byte", "just long enough", "longer"];

/// Where two accepted jobs may differ of which a supplier is shown the same.
const APART: [&str; 5] = ["tanks of choices", "minutes", "tanks of windows", "\"from\"", "\"to\""];

/// Numbers or bytes on either side of what is lent.
const MARGIN: usize = 16;

struct Comparison {
    random: Random,
    inputs: u64,
    differences: u64,
    /// Per call, how often each number was answered.
    numbers: BTreeMap<&'static str, [u64; NUMBERS]>,
    /// For each part and command byte, how often the check or the cost refused it with each number.
    commands: BTreeMap<(u8, Option<u8>), [u64; NUMBERS]>,
    /// How many registers were accepted, by the length of the day and whether `18` says it.
    days: BTreeMap<(u16, bool), u64>,
    /// How many registers were accepted, by their number of rows.
    rows: [u64; MAX_ROWS + 1],
    /// How many jobs were accepted that have rows, and how many certificates that have a `3B`.
    fitting: u64,
    row_forms: u64,
    /// How many accepted registers and jobs are as in `WIDE_REGISTERS` and `WIDE_JOBS`, how many schemes came to each of
    /// `FEW_PRODUCTS`, and how many searches found a plan of 2^32 or more.
    wide_registers: [u64; 8],
    wide_jobs: [u64; 5],
    few_products: [u64; 3],
    wide_found: u64,
    /// How many accepted schemes have each of `FACTORS`, how many times each of `WITH_FACTOR` occurred, and each of `OUT_OF_PLACE`.
    factors: [u64; 5],
    with_factor: [u64; 3],
    out_of_place: [u64; 4],
    /// How many accepted registers have a range of each kind, by `RANGES`, and how many have other terms beside ranges.
    ranges: [u64; 7],
    both_kinds: u64,
    /// Of registers with a range: per call and refused part, how often each number was answered.
    with_range: BTreeMap<(&'static str, u8), [u64; NUMBERS]>,
    /// How many accepted certificates would fall short beside the plan that feeds none or all; and for how many the part 4 that was
    /// lent could not be read, since no term came as a range.
    beside: [u64; 2],
    /// How many jobs of each supplier were accepted, and refused; and how many of all these left a counter at its limit.
    suppliers: [[u64; 2]; SUPPLIERS],
    at_limit: [u64; 2],
    /// How many jobs were refused 17, by `NOT_THERE`.
    not_there: [u64; 3],
    /// The jobs of the next list, and how many lists there were.
    jobs: Vec<Vec<u8>>,
    lists: u64,
    /// Per listing call that was lent a table long enough, how many jobs are accepted, by `ROOMS`.
    rooms: BTreeMap<&'static str, [u64; 4]>,
    /// How many pairs of jobs of which a supplier must be shown the same were listed, and refused 11; how many of the listed ones
    /// differ in each of `APART`.
    pairs: [u64; 2],
    apart: [u64; 5],
    /// The shapes of which a costliest register was written; how many were asked for that there is one of, by `ROOMS`, and that there
    /// is none of, by `NO_SHAPE`; and how many registers of few terms there were, by `BESIDE`.
    shapes: BTreeSet<(u32, u32)>,
    shape_rooms: [u64; 4],
    no_shape: [u64; 6],
    beside_costliest: [u64; 3],
    /// What lent tables and buffers hold at first.
    contents: Vec<i64>,
}

/// A table or a buffer that is lent alike to two calls, with something beside it.
struct Lent<T> {
    first: Vec<T>,
    second: Vec<T>,
}

impl<T: Copy + PartialEq> Lent<T> {
    fn new(all: Vec<T>) -> Self {
        Lent { first: all.clone(), second: all }
    }

    fn both(&mut self) -> (&mut [T], &mut [T]) {
        let end = self.first.len() - MARGIN;
        (&mut self.first[MARGIN..end], &mut self.second[MARGIN..end])
    }

    fn same(&self) -> bool {
        self.first == self.second
    }
}

/// A job of a list, its supplier, and the table that it is lent.
struct Listed {
    job: Vec<u8>,
    supplier: u8,
    table: Vec<i64>,
}

impl Comparison {
    fn table_length(&mut self) -> usize {
        let length =
            self.random.pick(&[4_225, 4_225, 4_225, 4_225, 4_225, 4_225, 4_225, 4_225, 4_225, 4_225, 4_226, 5_000, 4_224, 0]);
        if self.random.chance(1) {
            self.random.below(4_225)
        } else {
            length
        }
    }

    fn table(&mut self) -> Lent<i64> {
        let length = self.table_length();
        if self.random.chance(2) {
            let last = self.contents.len();
            let at = self.random.below(last);
            self.contents[at] = self.random.next() as i64;
        }
        Lent::new(self.contents[..length + 2 * MARGIN].to_vec())
    }

    /// A buffer for `count` bytes: just long enough, longer, or too short.
    fn buffer(&mut self, count: usize) -> Lent<u8> {
        let length = match self.random.below(10) {
            0..=2 => count,
            3 | 4 => count + 1 + self.random.below(40),
            5 | 6 => 2_000,
            7 => count.saturating_sub(1),
            8 => self.random.below(count + 1),
            _ => 0,
        };
        Lent::new(self.contents[..length + 2 * MARGIN].iter().map(|&number| number as u8).collect())
    }

    /// Counts an answer, and tells a difference.
    fn count_answer(&mut self, call: &'static str, number: u8, same: bool, input: &Input, answers: impl FnOnce() -> String) {
        self.numbers.get_mut(call).unwrap()[number as usize] += 1;
        if same {
            return;
        }
        self.differences += 1;
        if self.differences <= 10 {
            println!("difference in {call}, input {}: {}", self.inputs, answers());
            for part in &input.parts {
                println!("  part {}", hexadecimal(part));
            }
            println!("  job  {}", hexadecimal(&input.job));
        }
    }

    fn count_command(&mut self, refusal: Refusal, bytes: &[u8]) {
        let byte = bytes.get(refusal.position).copied().filter(|_| refusal.number != 12);
        self.commands.entry((refusal.part, byte)).or_default()[refusal.number as usize] += 1;
    }

    fn compare(&mut self, input: &Input) {
        self.inputs += 1;
        let [part1, part2, ..] = &input.parts;

        let library = raw::register(part1);
        let answer = register_answer(reference::register(part1));
        if answer.number == 0 {
            *self.days.entry((answer.register.day_length, part1[5] == 0x18)).or_default() += 1;
            self.rows[answer.register.rows] += 1;
        }
        if let Ok(register) = reference::register(part1) {
            self.count_ranges(&register);
            add(&mut self.wide_registers, kinds_of_register(&register, part1));
        }
        self.count_answer("register", answer.number, library == answer, input, || format!("{library:?} {answer:?}"));

        let library = raw::scheme(part1, part2);
        let answer = scheme_answer(reference::scheme(part1, part2));
        // The products stand first, or after the factor, which has as many bytes as a product.
        let product = answer.part == 2 && part2.get(answer.position) == Some(&0x21);
        let most = 3 * (MAX_PRODUCTS + says_factor(part2) as usize);
        self.few_products[0] += (product && answer.number == 3 && answer.position < most) as u64;
        match reference::scheme(part1, part2) {
            Ok(scheme) => add(&mut self.factors, kinds_of_factor(&scheme, part2)),
            Err(refusal) => add(&mut self.out_of_place, misplaced_factor(refusal, part2)),
        }
        self.count_answer("scheme", answer.number, library == answer, input, || format!("{library:?} {answer:?}"));

        self.compare_writer("build", input, 865, |buffer| raw::build(part1, buffer), |buffer| reference::build(part1, buffer));
        self.compare_cost(input);
        self.compare_search(input);
        self.compare_penalty(input);
        self.compare_check(input);
        self.compare_writer(
            "plain",
            input,
            1_294,
            |buffer| raw::plain(part1, part2, &input.beside, buffer),
            |buffer| reference::plain(part1, part2, &input.beside, buffer),
        );
        self.compare_job(input);
        self.jobs.push(input.job.clone());
        if self.jobs.len() == LIST {
            self.compare_list();
        }
        self.compare_listing("listing", input, raw::listing, reference::listing);
        self.compare_listing("supplier_listing", input, raw::supplier_listing, reference::supplier_listing);
        self.compare_pairs(input);
        self.compare_costliest(input);
    }

    /// A call that writes bytes, at most `longest`.
    fn compare_writer(
        &mut self,
        call: &'static str,
        input: &Input,
        longest: usize,
        library: impl Fn(&mut [u8]) -> raw::WriterAnswer,
        reference: impl Fn(&mut [u8]) -> Answer<usize>,
    ) {
        let count = reference(&mut [0; 2_000]).unwrap_or(longest);
        let mut buffer = self.buffer(count);
        let (ours, theirs) = buffer.both();
        let library = library(ours);
        let answer = written(reference(theirs));
        let same = library == answer && buffer.same();
        self.count_answer(call, answer.number, same, input, || format!("{library:?} {answer:?} buffers {}", buffer.same()));
        if call == "plain" && has_range(alone(&input.parts[0])) {
            self.count_with_range(call, answer.part, answer.number);
        }
        if call == "build" {
            self.count_built(&input.parts[0], answer.number);
        }
    }

    /// Counts a scheme that was to be built, where there may be fewer than 32 products.
    fn count_built(&mut self, part1: &[u8], number: u8) {
        let few = |register: &Register| register.choices.len() + MAX_PRODUCTS > MAX_VARIABLES;
        if let Some(register) = alone(part1).filter(few) {
            let full = reference::builder::build(&register).is_ok_and(|scheme| scheme.is_full());
            self.few_products[1] += (number == 0 && full) as u64;
            self.few_products[2] += (number == 10) as u64;
        }
    }

    /// A costliest register, and, where it is written, the products that the library's builder forms for it.
    fn compare_costliest(&mut self, input: &Input) {
        let (m, d) = shape(&mut self.random);
        let expected = reference::costliest(m, d, &mut [0; MAX_COSTLIEST]);
        let mut buffer = self.buffer(expected.unwrap_or(MAX_COSTLIEST));
        let (ours, theirs) = buffer.both();
        let library = raw::costliest(m, d, ours);
        let answer = written(reference::costliest(m, d, theirs));
        match expected {
            Ok(count) => {
                let room = (theirs.len() + 2).saturating_sub(count).min(3);
                self.shape_rooms[room] += 1;
            }
            Err(_) => add(&mut self.no_shape, kinds_of_no_shape(m, d, theirs.len())),
        }
        let is_written = answer.number == 0;
        let formed = is_written.then(|| products_formed(&ours[..answer.count])).flatten();
        let due = is_written.then(|| (m * (d - 2)) as usize);
        if is_written {
            self.shapes.insert((m, d));
        }
        let same = library == answer && buffer.same() && formed == due;
        self.count_answer("costliest", answer.number, same, input, || {
            format!("{m} terms of {d}: {library:?} {answer:?} buffers {} products {formed:?}", buffer.same())
        });
        self.compare_products(input);
    }

    /// Where a register has at most m terms of at most d choices each and there is a costliest one of m and d, the library's builder
    /// forms at most as many products for it; one that is refused 10 needs one more than there may be.
    fn compare_products(&mut self, input: &Input) {
        let part1 = &input.parts[0];
        let Some(register) = alone(part1) else { return };
        let degree = register.terms.iter().map(|term| term.mask.count_ones()).max().unwrap_or(0);
        let (m, d) = (register.terms.len().max(1), degree.max(3) as usize);
        if m * d > 32 {
            return;
        }
        let (most, formed) = (m * (d - 2), products_formed(part1));
        let limit = MAX_PRODUCTS.min(MAX_VARIABLES - register.choices.len());
        let needed = formed.unwrap_or(limit + 1);
        add(&mut self.beside_costliest, [needed < most && formed.is_some(), formed == Some(most), formed.is_none()]);
        if needed > most {
            self.differences += 1;
            println!("more products than the costliest register's {most}, input {}: {formed:?}", self.inputs);
            println!("  part {}", hexadecimal(part1));
        }
    }

    fn compare_cost(&mut self, input: &Input) {
        let [part1, _, _, part4] = &input.parts;
        let library = raw::cost(part1, part4);
        let (refusal, value) = split(reference::cost(part1, part4), 0);
        let answer = raw::CostAnswer { number: refusal.number, part: refusal.part, position: refusal.position, cost: value };
        self.count_answer("cost", answer.number, library == answer, input, || format!("{library:?} {answer:?}"));
        if refusal.part == 4 {
            self.count_command(refusal, part4);
        }
    }

    /// A visit limit for a search: about as many visits as it takes, if that is found out in so many as here, else fewer.
    fn visit_limit(&mut self, part1: &[u8]) -> u32 {
        let most = match self.random.below(1_000) {
            0..=4 => 1_000_000,
            5..=399 => 10_000,
            _ => 2_000,
        };
        let few = self.random.below(70) as u32;
        match reference::search(part1, most) {
            Ok(found) => {
                let visits = found.visits;
                let fewer = self.random.below(visits as usize) as u32;
                // With more choices a library that leaves too few branches might not come to an end.
                let small = reference::register(part1).is_ok_and(|register| register.choices.len() <= 16);
                let ample = if small { u32::MAX } else { 2 * visits };
                self.random.pick(&[visits, visits, visits, visits - 1, visits - 1, visits + 1, fewer, few, 0, ample])
            }
            // No plan fits, and nothing is left.
            Err(refusal) if refusal.number == 16 => {
                let visits = reference::register(part1).map_or(0, |register| (2 << register.choices.len()) - 1);
                self.random.pick(&[visits, visits, visits, visits - 1, visits - 1, visits + 1, few, 0, 2 * visits])
            }
            Err(refusal) if refusal.number == 14 => self.random.pick(&[most, most, most - 1, few, 0]),
            Err(_) => self.random.pick(&[0, 0, few, most, u32::MAX]),
        }
    }

    fn compare_search(&mut self, input: &Input) {
        let [part1, ..] = &input.parts;
        let limit = self.visit_limit(part1);
        let library = raw::search(part1, limit);
        let (refusal, found) = split(reference::search(part1, limit), Found::default());
        let answer = raw::SearchAnswer {
            number: refusal.number,
            part: refusal.part,
            position: refusal.position,
            plan: found.plan,
            cost: found.cost,
            visits: found.visits,
        };
        self.wide_found += !narrow(found.plan) as u64;
        self.count_answer("search", answer.number, library == answer, input, || format!("limit {limit}: {library:?} {answer:?}"));
    }

    fn compare_penalty(&mut self, input: &Input) {
        let [part1, part2, ..] = &input.parts;
        let mut table = self.table();
        let (ours, theirs) = table.both();
        let library = raw::penalty(part1, part2, ours);
        let (refusal, ()) = split(reference::penalty(part1, part2, theirs), ());
        let answer = raw::PenaltyAnswer { number: refusal.number, part: refusal.part, position: refusal.position };
        if answer.number == 0 {
            let (register, _) = reference::register::read(part1).expect("an accepted register");
            let (scheme, _) = reference::scheme::read(&register, part2).expect("an accepted scheme");
            let weights = reference::scheme::weights(&register, &scheme);
            self.with_factor[0] += (scheme.factor > 1 && weights.iter().any(|&weight| weight > 0)) as u64;
        }
        let same = library == answer && table.same();
        self.count_answer("penalty", answer.number, same, input, || format!("{library:?} {answer:?} tables {}", table.same()));
    }

    fn compare_check(&mut self, input: &Input) {
        let [part1, part2, part3, _] = &input.parts;
        let mut table = self.table();
        let (ours, theirs) = table.both();
        let library = raw::check(part1, part2, part3, &input.beside, ours);
        let (refusal, value) = split(reference::check(part1, part2, part3, &input.beside, theirs), 0);
        let answer = raw::CheckAnswer { number: refusal.number, part: refusal.part, position: refusal.position, bound: value };
        let same = library == answer && table.same();
        self.count_answer("check", answer.number, same, input, || format!("{library:?} {answer:?} tables {}", table.same()));
        let parts = [part1, part2, part3, &input.beside];
        if refusal.part != 0 {
            self.count_command(refusal, parts[refusal.part as usize - 1]);
        }
        if has_range(alone(part1)) {
            self.count_with_range("check", refusal.part, refusal.number);
        }
        if refusal.number == 0 {
            self.count_certificate(parts.map(|part| &part[..]));
        }
    }

    /// Counts an accepted certificate by what it has, and by the plan beside which it was accepted.
    fn count_certificate(&mut self, [part1, part2, part3, part4]: [&[u8]; 4]) {
        let (register, _) = reference::register::read(part1).expect("an accepted register");
        let (scheme, _) = reference::scheme::read(&register, part2).expect("an accepted scheme");
        let (certificate, _) = reference::certificate::read(&register, &scheme, part3).expect("an accepted certificate");
        self.with_factor[1] += says_factor(part2) as u64;
        self.row_forms += certificate.multipliers.iter().any(|multiplier| multiplier.kind == 0x3B) as u64;
        let carried = |plan| reference::certificate::residual(&register, &scheme, plan, &certificate).dominant();
        if register.has_range() {
            self.beside[0] += !(carried(FEEDS_NONE) && carried(register.all())) as u64;
        } else {
            self.beside[1] += reference::plan::read(&register, part4).is_err() as u64;
        }
    }

    fn count_ranges(&mut self, register: &Register) {
        let ranges = || register.terms.iter().filter(|term| term.ranged);
        for (kind, count) in self.ranges.iter_mut().enumerate() {
            *count += ranges().any(|range| kinds_of_range(range)[kind]) as u64;
        }
        self.both_kinds += (register.has_range() && ranges().count() < register.terms.len()) as u64;
    }

    fn count_with_range(&mut self, call: &'static str, part: u8, number: u8) {
        self.with_range.entry((call, part)).or_default()[number as usize] += 1;
    }

    /// A supplier, mostly one that is there.
    fn supplier(&mut self) -> u8 {
        let above = (SUPPLIERS + self.random.below(256 - SUPPLIERS)) as u8;
        if self.random.chance(12) {
            self.random.pick(&[16, 17, 31, 32, 128, 240, 255, above])
        } else {
            self.random.below(SUPPLIERS) as u8
        }
    }

    /// Counters that differ, mostly; some are at their limit or one below it.
    fn tally(&mut self) -> Tally {
        let mut counter = || {
            let any = self.random.below(1_000_000) as u32;
            self.random.pick(&[0, any, any, u32::MAX - 1, u32::MAX])
        };
        std::array::from_fn(|_| Counters { accepted: counter(), refused: counter() })
    }

    fn compare_job(&mut self, input: &Input) {
        let (supplier, before) = (self.supplier(), self.tally());
        let mut table = self.table();
        let (ours, theirs) = table.both();
        let length = theirs.len();
        let library = raw::job(&input.job, ours, supplier, raw_tally(before));
        let (answer, after) = reference::job(&input.job, theirs, supplier, before);
        let (refusal, outcome) = split(answer, reference::Outcome::default());
        let answer = raw::JobAnswer {
            number: refusal.number,
            part: refusal.part,
            position: refusal.position,
            bound: outcome.bound,
            cost: outcome.cost,
            gap: outcome.gap,
            tally: raw_tally(after),
        };
        if answer.number == 0 {
            self.count_job(&input.job);
        }
        if has_range(reference::register::read(&input.job).ok().map(|(register, _)| register)) {
            self.count_with_range("job", answer.part, answer.number);
        }
        self.count_supplier(&input.job, supplier, length, &before, answer.number);
        let same = library == answer && table.same();
        self.count_answer("job", answer.number, same, input, || {
            format!("supplier {supplier}, tally {before:?}: {library:?} {answer:?} tables {}", table.same())
        });
    }

    /// Counts an accepted job by what it has.
    fn count_job(&mut self, job: &[u8]) {
        let (register, mut at) = reference::register::read(job).expect("an accepted register");
        let (scheme, length) = reference::scheme::read(&register, &job[at..]).expect("an accepted scheme");
        self.with_factor[2] += says_factor(&job[at..]) as u64;
        at += length;
        if !register.has_range() {
            at += reference::certificate::read(&register, &scheme, &job[at..]).expect("an accepted certificate").1;
        }
        let (plan, _) = reference::plan::read(&register, &job[at..]).expect("an accepted plan");
        let (said, many, rows) = (job[at] == 0x41, register.choices.len() > 32, !register.rows.is_empty());
        self.fitting += rows as u64;
        add(&mut self.wide_jobs, [said, said && narrow(plan), !narrow(plan), many && rows, many && register.has_range()]);
    }

    /// Counts a job by its supplier, or by what it would be if its supplier were there.
    fn count_supplier(&mut self, job: &[u8], supplier: u8, length: usize, before: &Tally, number: u8) {
        let refused = (number != 0) as usize;
        match before.get(supplier as usize) {
            Some(pair) => {
                self.suppliers[supplier as usize][refused] += 1;
                self.at_limit[refused] += ([pair.accepted, pair.refused][refused] == u32::MAX) as u64;
            }
            None if length < TABLE_NUMBERS => self.not_there[2] += 1,
            None => {
                let (answer, _) = reference::job(job, &mut vec![0; length], 0, *before);
                self.not_there[answer.is_err() as usize] += 1;
            }
        }
    }

    /// Jobs of at most four suppliers with one tally, on both sides. Then, by the library, the jobs of each supplier by themselves,
    /// which must leave that supplier's pair as it was with the others; and from counters of 0 the sums over the suppliers must be
    /// the counts of all jobs that are not refused 17.
    fn compare_list(&mut self) {
        let some: [u8; 4] = std::array::from_fn(|_| self.supplier());
        let jobs = std::mem::take(&mut self.jobs).into_iter();
        let list: Vec<Listed> = jobs
            .map(|job| {
                let length = self.table_length();
                Listed { job, supplier: self.random.pick(&some), table: self.contents[..length].to_vec() }
            })
            .collect();
        let start = if self.random.chance(50) { Tally::default() } else { self.tally() };
        let (library, sums) = run_library(list.iter(), start);
        let same = library == run_reference(list.iter(), start);
        let alone = (0..SUPPLIERS).all(|k| {
            let own = list.iter().filter(|listed| listed.supplier as usize == k);
            run_library(own, start).0[k] == library[k]
        });
        let sum = |counter: fn(&Counters) -> u32| library.iter().map(|pair| counter(pair) as u64).sum::<u64>();
        let summed = start != Tally::default() || [sum(|pair| pair.accepted), sum(|pair| pair.refused)] == sums;
        self.lists += 1;
        if !(same && alone && summed) {
            self.differences += 1;
            if self.differences <= 10 {
                println!("difference in the {LIST} jobs up to input {}: same {same}, alone {alone}, sums {summed}", self.inputs);
            }
        }
    }

    /// A call that writes the lines of a job.
    fn compare_listing(
        &mut self,
        call: &'static str,
        input: &Input,
        library: Listing<raw::WriterAnswer>,
        reference: Listing<Answer<usize>>,
    ) {
        let (count, accepted) = lines_of(&input.job, reference);
        let mut buffer = self.buffer(count);
        let mut table = self.table();
        let (our_bytes, their_bytes) = buffer.both();
        let (ours, theirs) = table.both();
        if accepted && ours.len() >= TABLE_NUMBERS {
            let room = (our_bytes.len() + 2).saturating_sub(count).min(3);
            self.rooms.get_mut(call).unwrap()[room] += 1;
        }
        let library = library(&input.job, ours, our_bytes);
        let answer = written(reference(&input.job, theirs, their_bytes));
        let same = library == answer && table.same() && buffer.same();
        self.count_answer(call, answer.number, same, input, || {
            format!("{library:?} {answer:?} tables {} buffers {}", table.same(), buffer.same())
        });
    }

    /// Of an accepted job, and of others that differ from it in tanks, minutes, "from" and "to" alone and are accepted too, the
    /// library must show a supplier the same, lent alike: answer, every byte of the buffer and every number of the table.
    fn compare_pairs(&mut self, input: &Input) {
        let (count, true) = lines_of(&input.job, reference::supplier_listing) else { return };
        let (register, _) = reference::register::read(&input.job).expect("the register of an accepted job");
        for _ in 0..2 {
            let other = with_other_places(&mut self.random, &input.job, &register);
            if other == input.job || !lines_of(&other, reference::supplier_listing).1 {
                continue;
            }
            let mut buffer = self.buffer(count);
            let mut table = self.table();
            let (bytes, other_bytes) = buffer.both();
            let (numbers, other_numbers) = table.both();
            let answer = raw::supplier_listing(&input.job, numbers, bytes);
            let other_answer = raw::supplier_listing(&other, other_numbers, other_bytes);
            if answer.number == 0 {
                self.pairs[0] += 1;
                let (other_register, _) = reference::register::read(&other).expect("the register of an accepted job");
                let both = hidden(&register).into_iter().zip(hidden(&other_register));
                self.apart.iter_mut().zip(both).for_each(|(count, (one, other))| *count += (one != other) as u64);
            } else {
                self.pairs[1] += 1;
            }
            if answer != other_answer || !table.same() || !buffer.same() {
                self.differences += 1;
                if self.differences <= 10 {
                    println!(
                        "jobs of which a supplier is not shown the same, input {}: {answer:?} {other_answer:?}",
                        self.inputs
                    );
                    println!("  job  {}\n  job  {}", hexadecimal(&input.job), hexadecimal(&other));
                }
            }
        }
    }

    /// Prints the counts; how many of the scope's refusal numbers, lengths of the day and numbers of rows no input led to.
    fn report(&self) -> usize {
        let mut missing = 0;
        println!("{} inputs, each to every call; how often each number was answered (0: accepted)", self.inputs);
        print!("{:16}", "");
        (0..NUMBERS).for_each(|number| print!("{number:>8}"));
        println!();
        for (call, expected) in CALLS {
            let numbers = &self.numbers[call];
            print!("{call:16}");
            numbers.iter().for_each(|count| print!("{count:>8}"));
            println!();
            for &number in expected.iter().filter(|&&number| numbers[number as usize] == 0) {
                println!("{call}: refusal {number} did not occur");
                missing += 1;
            }
        }
        println!("accepted registers by the length of the day");
        for day in DAYS {
            let count = self.days.get(&day).copied().unwrap_or_default();
            println!("{} minutes, {}: {count}", day.0, if day.1 { "said by 18" } else { "not said" });
            missing += (count == 0) as usize;
        }
        println!("accepted registers by the number of rows");
        for (rows, &count) in self.rows.iter().enumerate() {
            println!("{rows}: {count}");
            missing += (count == 0) as usize;
        }
        println!("accepted jobs with rows: {}; accepted certificates with 3B: {}", self.fitting, self.row_forms);
        missing += (self.fitting == 0) as usize + (self.row_forms == 0) as usize;
        missing += self.report_wide() + self.report_factors() + self.report_ranges();
        missing += self.report_suppliers() + self.report_listings() + self.report_costliest();
        println!(
            "commands refused by the check, and those of part 4 by the cost too (--: no byte there, or bytes after the end)"
        );
        for ((part, byte), numbers) in &self.commands {
            let byte = byte.map_or("--".to_string(), |byte| format!("{byte:02X}"));
            let known = *part as usize <= 4 && numbers[2..].iter().any(|&count| count > 0) || byte == "--";
            if known {
                print!("part {part} {byte:2} ");
                numbers.iter().for_each(|count| print!("{count:>8}"));
                println!();
            }
        }
        for (part, byte, expected) in COMMANDS {
            let numbers = self.commands.get(&(part, Some(byte))).copied().unwrap_or_default();
            for number in expected.iter().filter(|&&number| numbers[number as usize] == 0) {
                println!("command {byte:02X}: refusal {number} did not occur");
                missing += 1;
            }
        }
        missing
    }

    /// Prints what was counted of more than 32 choices and of `15` and `41`; how much of it did not occur.
    fn report_wide(&self) -> usize {
        println!("accepted registers with");
        WIDE_REGISTERS.iter().zip(self.wide_registers).for_each(|(kind, count)| println!("{kind}: {count}"));
        println!("accepted jobs with");
        WIDE_JOBS.iter().zip(self.wide_jobs).for_each(|(kind, count)| println!("{kind}: {count}"));
        println!("schemes for which there are fewer than 32 products");
        FEW_PRODUCTS.iter().zip(self.few_products).for_each(|(kind, count)| println!("{kind}: {count}"));
        println!("searches that found a plan of 2^32 or more: {}", self.wide_found);
        zeros(&self.wide_registers) + zeros(&self.wide_jobs) + zeros(&self.few_products) + zeros(&[self.wide_found])
    }

    /// Prints what was counted of factors; how much of it did not occur.
    fn report_factors(&self) -> usize {
        println!("accepted schemes by the factor");
        FACTORS.iter().zip(self.factors).for_each(|(kind, count)| println!("{kind}: {count}"));
        println!("with a factor that is said");
        WITH_FACTOR.iter().zip(self.with_factor).for_each(|(kind, count)| println!("{kind}: {count}"));
        println!("a 23 refused 1 in part 2");
        OUT_OF_PLACE.iter().zip(self.out_of_place).for_each(|(kind, count)| println!("{kind}: {count}"));
        zeros(&self.factors) + zeros(&self.with_factor) + zeros(&self.out_of_place)
    }

    /// Prints what was counted of ranges; how much of it did not occur.
    fn report_ranges(&self) -> usize {
        println!("accepted registers with a range of a kind");
        RANGES.iter().zip(self.ranges).for_each(|(kind, count)| println!("{kind}: {count}"));
        println!("accepted registers with ranges and known coefficients: {}", self.both_kinds);
        println!("accepted certificates that fall short beside the plan that feeds none or all: {}", self.beside[0]);
        println!("accepted certificates of registers without a range, lent a part 4 that can't be read: {}", self.beside[1]);
        println!("answers on registers with a range, by the part that is refused (0: none)");
        let mut missing = zeros(&self.ranges) + zeros(&[self.both_kinds]) + zeros(&self.beside);
        for (call, part, expected) in WITH_RANGE {
            let numbers = self.with_range.get(&(call, part)).copied().unwrap_or_default();
            print!("{call:8}{part:>8}");
            numbers.iter().for_each(|count| print!("{count:>8}"));
            println!();
            for &number in expected.iter().filter(|&&number| numbers[number as usize] == 0) {
                println!("{call} with a range: number {number} in part {part} did not occur");
                missing += 1;
            }
        }
        missing
    }

    /// Prints what was counted of suppliers; how much of it did not occur.
    fn report_suppliers(&self) -> usize {
        println!("jobs accepted and refused, by the supplier");
        for (supplier, [accepted, refused]) in self.suppliers.iter().enumerate() {
            println!("{supplier}: {accepted} {refused}");
        }
        println!("of these with a counter that stayed at its limit: {} {}", self.at_limit[0], self.at_limit[1]);
        for (kind, count) in NOT_THERE.iter().zip(self.not_there) {
            println!("jobs refused 17, {kind}: {count}");
        }
        println!("lists of {LIST} jobs with one tally: {}", self.lists);
        zeros(self.suppliers.as_flattened()) + zeros(&self.at_limit) + zeros(&self.not_there) + zeros(&[self.lists])
    }

    /// Prints what was counted of listings; how much of it did not occur.
    fn report_listings(&self) -> usize {
        for (call, counts) in &self.rooms {
            println!("accepted jobs, {call}, by the buffer");
            ROOMS.iter().zip(counts).for_each(|(room, count)| println!("{room}: {count}"));
        }
        println!(
            "pairs of jobs of which a supplier must be shown the same, listed and refused 11: {} {}",
            self.pairs[0], self.pairs[1]
        );
        println!("listed ones that differ in");
        APART.iter().zip(self.apart).for_each(|(kind, count)| println!("{kind}: {count}"));
        self.rooms.values().map(|counts| zeros(counts)).sum::<usize>() + zeros(&self.pairs) + zeros(&self.apart)
    }

    /// Prints what was counted of costliest registers; how much of it did not occur.
    fn report_costliest(&self) -> usize {
        println!("shapes of which a costliest register was written: {} of {SHAPES}", self.shapes.len());
        println!("shapes that there is one of, by the buffer");
        ROOMS.iter().zip(self.shape_rooms).for_each(|(room, count)| println!("{room}: {count}"));
        println!("shapes refused 18");
        NO_SHAPE.iter().zip(self.no_shape).for_each(|(kind, count)| println!("{kind}: {count}"));
        println!("registers of few terms, by the products that the builder forms, beside the costliest");
        BESIDE.iter().zip(self.beside_costliest).for_each(|(kind, count)| println!("{kind}: {count}"));
        let missing = SHAPES.abs_diff(self.shapes.len()) + zeros(&self.shape_rooms);
        missing + zeros(&self.no_shape) + zeros(&self.beside_costliest)
    }
}

/// How many products the library's builder forms for a register, by its scheme reader; `None` where it builds no scheme.
fn products_formed(part1: &[u8]) -> Option<usize> {
    let mut built = [0; 865];
    let answer = raw::build(part1, &mut built);
    let read = raw::scheme(part1, &built[..answer.count]);
    (read.number == 0).then_some(read.scheme.products)
}

/// Why there is no costliest register, as in `NO_SHAPE`, and whether a buffer of no bytes was lent.
fn kinds_of_no_shape(m: u32, d: u32, length: usize) -> [bool; 6] {
    let in_range = m > 0 && (3..=32).contains(&d);
    [m == 0, d < 3, d > 32, in_range, in_range && m.wrapping_mul(d) <= 32, length == 0]
}

/// How many of the counts are 0.
fn zeros(counts: &[u64]) -> usize {
    counts.iter().filter(|&&count| count == 0).count()
}

/// Raises each count by 1 where that holds.
fn add<const COUNT: usize>(counts: &mut [u64; COUNT], holds: [bool; COUNT]) {
    counts.iter_mut().zip(holds).for_each(|(count, holds)| *count += holds as u64);
}

/// How many bytes a listing call writes of a job, and whether the job is accepted.
fn lines_of(job: &[u8], listing: Listing<Answer<usize>>) -> (usize, bool) {
    let mut lines = [0; 4_096];
    let count = listing(job, &mut [0; 4_225], &mut lines).expect("room for every listing");
    (count, lines[0] != b'R')
}

/// What a supplier is not shown of a register, as in `APART`.
fn hidden(register: &Register) -> [Vec<u16>; 5] {
    let (choices, windows) = (&register.choices, &register.windows);
    [
        choices.iter().map(|choice| choice.tank).collect(),
        choices.iter().map(|choice| choice.minute).collect(),
        windows.iter().map(|window| window.tank).collect(),
        windows.iter().map(|window| window.from).collect(),
        windows.iter().map(|window| window.to).collect(),
    ]
}

fn raw_tally(tally: Tally) -> raw::Tally {
    raw::Tally { pairs: tally.map(|Counters { accepted, refused }| raw::Counters { accepted, refused }) }
}

/// The tally that the library leaves after the jobs, and how many it accepted, and refused otherwise than 17.
fn run_library<'a>(list: impl Iterator<Item = &'a Listed>, start: Tally) -> (Tally, [u64; 2]) {
    let (mut tally, mut counts) = (raw_tally(start), [0; 2]);
    for Listed { job, supplier, table } in list {
        let answer = raw::job(job, &mut table.clone(), *supplier, tally);
        tally = answer.tally;
        match answer.number {
            0 => counts[0] += 1,
            17 => {}
            _ => counts[1] += 1,
        }
    }
    (tally.pairs.map(|raw::Counters { accepted, refused }| Counters { accepted, refused }), counts)
}

fn run_reference<'a>(list: impl Iterator<Item = &'a Listed>, start: Tally) -> Tally {
    list.fold(start, |tally, Listed { job, supplier, table }| reference::job(job, &mut table.clone(), *supplier, tally).1)
}

fn hexadecimal(bytes: &[u8]) -> String {
    bytes.iter().map(|byte| format!("{byte:02X}")).collect()
}

/// Number, part and position, zeros when the answer accepts, and its value, `zero` when it refuses.
fn split<T>(answer: Answer<T>, zero: T) -> (Refusal, T) {
    match answer {
        Ok(value) => (Refusal::default(), value),
        Err(refusal) => (refusal, zero),
    }
}

/// The register that these bytes are, if they are one.
fn alone(part1: &[u8]) -> Option<Register> {
    reference::register(part1).ok()
}

fn has_range(register: Option<Register>) -> bool {
    register.is_some_and(|register| register.has_range())
}

/// Whether a mask or a plan has room in 32 bits.
fn narrow(set: u64) -> bool {
    set <= u32::MAX as u64
}

/// What a register of these bytes is, as in `WIDE_REGISTERS`.
fn kinds_of_register(register: &Register, bytes: &[u8]) -> [bool; 8] {
    let (n, terms) = (register.choices.len(), &register.terms);
    let by_15 = |term: &Term| bytes[term.position] == 0x15;
    let without_need = terms.iter().position(|term| by_15(term) && narrow(term.mask));
    [
        n > 32,
        n == MAX_CHOICES,
        n > 32 && register.has_range(),
        n > 32 && !register.rows.is_empty(),
        without_need.is_some(),
        without_need.is_some_and(|at| terms[at..].iter().any(|term| !by_15(term))),
        terms.iter().any(|term| !narrow(term.mask)),
        terms.iter().any(|term| term.mask as u32 == 0),
    ]
}

/// Whether these bytes of a scheme say a factor.
fn says_factor(part2: &[u8]) -> bool {
    part2.first() == Some(&0x23)
}

/// Which factor a scheme of these bytes has, as in `FACTORS`.
fn kinds_of_factor(scheme: &Scheme, bytes: &[u8]) -> [bool; 5] {
    let (factor, said) = (scheme.factor, says_factor(bytes));
    [factor == 1 && !said, factor == 1 && said, factor == 2, factor == MAX_FACTOR, (3..MAX_FACTOR).contains(&factor)]
}

/// Where the `23` stands that is refused here, as in `OUT_OF_PLACE`. The command before it has three bytes, as each but the end has.
fn misplaced_factor(refusal: Refusal, bytes: &[u8]) -> [bool; 4] {
    let at = refusal.position;
    let misplaced = (refusal.number, refusal.part) == (1, 2) && bytes[at] == 0x23;
    let after = |byte| misplaced && bytes[at - 3] == byte;
    [after(0x23), after(0x21), after(0x22), misplaced && bytes.len() < at + 3]
}

/// What a range is, as in `RANGES`.
fn kinds_of_range(range: &Term) -> [bool; 7] {
    let (low, high, limit) = (range.low, range.high, MAX_COEFFICIENT as i32);
    [
        low == high,
        low == 0 && high > 0,
        low < 0 && high == 0,
        low == 0 && high == 0,
        low < 0 && high > 0,
        low == -limit,
        high == limit,
    ]
}

fn written(answer: Answer<usize>) -> raw::WriterAnswer {
    let (refusal, count) = split(answer, 0);
    raw::WriterAnswer { number: refusal.number, part: refusal.part, position: refusal.position, count }
}

fn register_answer(answer: Answer<reference::register::Register>) -> raw::RegisterAnswer {
    let mut record = raw::Register {
        base: 0,
        day_length: 0,
        choices: 0,
        terms: 0,
        tanks: [0; MAX_CHOICES],
        minutes: [0; MAX_CHOICES],
        masks: [0; 256],
        coefficients: [0; 256],
        highs: [0; 256],
        ranged: [false; 256],
        windows: 0,
        window_tanks: [0; 64],
        window_froms: [0; 64],
        window_tos: [0; 64],
        rows: 0,
        row_totals: [0; MAX_ROWS],
        row_entries: [0; MAX_ROWS * ROW_ENTRIES],
    };
    let refusal = answer.as_ref().err().copied().unwrap_or_default();
    if let Ok(register) = answer {
        record.base = register.base;
        record.day_length = register.day_length;
        record.choices = register.choices.len();
        record.terms = register.terms.len();
        for (i, choice) in register.choices.iter().enumerate() {
            record.tanks[i] = choice.tank;
            record.minutes[i] = choice.minute;
        }
        for (t, term) in register.terms.iter().enumerate() {
            record.masks[t] = term.mask;
            record.coefficients[t] = term.low;
            record.highs[t] = term.high;
            record.ranged[t] = term.ranged;
        }
        record.windows = register.windows.len();
        for (w, window) in register.windows.iter().enumerate() {
            record.window_tanks[w] = window.tank;
            record.window_froms[w] = window.from;
            record.window_tos[w] = window.to;
        }
        record.rows = register.rows.len();
        for (k, row) in register.rows.iter().enumerate() {
            record.row_totals[k] = row.total;
            record.row_entries[ROW_ENTRIES * k..][..ROW_ENTRIES].copy_from_slice(&row.entries);
        }
    }
    raw::RegisterAnswer { number: refusal.number, part: refusal.part, position: refusal.position, register: record }
}

fn scheme_answer(answer: Answer<reference::scheme::Scheme>) -> raw::SchemeAnswer {
    let mut record = raw::Scheme {
        products: 0,
        splits: 0,
        lefts: [0; 32],
        rights: [0; 32],
        split_lefts: [0; 256],
        split_rights: [0; 256],
        factor: 0,
    };
    let refusal = answer.as_ref().err().copied().unwrap_or_default();
    if let Ok(scheme) = answer {
        record.factor = scheme.factor;
        record.products = scheme.products.len();
        record.splits = scheme.splits.len();
        for (k, &(l, r)) in scheme.products.iter().enumerate() {
            record.lefts[k] = l as u8;
            record.rights[k] = r as u8;
        }
        for (t, &(l, r)) in scheme.splits.iter().enumerate() {
            record.split_lefts[t] = l as u8;
            record.split_rights[t] = r as u8;
        }
    }
    raw::SchemeAnswer { number: refusal.number, part: refusal.part, position: refusal.position, scheme: record }
}

fn seeds(folders: impl Iterator<Item = String>) -> Vec<Whole> {
    let entries = folders.flat_map(|folder| std::fs::read_dir(folder).expect("a folder of jobs"));
    let mut paths: Vec<_> = entries.map(|entry| entry.unwrap().path()).collect();
    paths.retain(|path| path.extension().is_some_and(|extension| extension == "job"));
    paths.sort();
    paths.iter().filter_map(|path| seed(&std::fs::read(path).unwrap())).collect()
}

fn main() {
    let mut words = std::env::args().skip(1);
    let mut number = |default| words.next().map_or(default, |word| word.parse().expect("a number"));
    let (count, start) = (number(120_000), number(1));
    let seeds = seeds(words);
    println!("{} jobs as seeds", seeds.len());
    let mut random = Random(start);
    let contents = (0..5_000 + 2 * MARGIN).map(|_| random.next() as i64).collect();
    let numbers = CALLS.map(|(call, _)| (call, [0; NUMBERS])).into();
    let (commands, days) = (BTreeMap::new(), BTreeMap::new());
    let mut comparison = Comparison {
        random,
        inputs: 0,
        differences: 0,
        numbers,
        commands,
        days,
        rows: [0; MAX_ROWS + 1],
        fitting: 0,
        row_forms: 0,
        wide_registers: [0; 8],
        wide_jobs: [0; 5],
        few_products: [0; 3],
        wide_found: 0,
        factors: [0; 5],
        with_factor: [0; 3],
        out_of_place: [0; 4],
        ranges: [0; 7],
        both_kinds: 0,
        with_range: BTreeMap::new(),
        beside: [0; 2],
        suppliers: [[0; 2]; SUPPLIERS],
        at_limit: [0; 2],
        not_there: [0; 3],
        jobs: Vec::new(),
        lists: 0,
        rooms: BTreeMap::from(["listing", "supplier_listing"].map(|call| (call, [0; 4]))),
        pairs: [0; 2],
        apart: [0; 5],
        shapes: BTreeSet::new(),
        shape_rooms: [0; 4],
        no_shape: [0; 6],
        beside_costliest: [0; 3],
        contents,
    };
    let mut random = Random(start ^ 0x5EED);
    for _ in 0..count {
        comparison.compare(&input(&mut random, &seeds));
    }
    let missing = comparison.report();
    println!("{} differences", comparison.differences);
    std::process::exit((missing > 0 || comparison.differences > 0) as i32);
}
