//! Safe functions over the proved calls, one for each. Every call is a function of what it is given; nothing is kept between calls.
//!
//! A supplier sends a farm a job, a file of four parts, whose bytes `docs/FORMAT.md` explains:
//!
//! - The **register**, part 1: what the farm may do and what it costs. Its choices, each a tank and a minute at which the tank may
//!   be fed; its terms, each a set of choices and a coefficient that is added to the cost where all of them are fed, or a range of
//!   coefficients, a low and a high one; its windows, rows and day's length.
//! - The **scheme**, part 2: further variables, each the product of two others, and for each term the two variables whose product
//!   it is. So the cost becomes a polynomial of degree 2. There may be a factor that makes the penalty form heavier.
//! - The **certificate**, part 3: whole numbers which show that no plan that fits costs less than a bound.
//! - The **plan**, part 4: which choices are fed. It costs the register's base cost and the coefficients of all terms whose choices
//!   are all fed, of a range the high one. It fits where the total of each row comes out; without rows every plan fits.
//!
//! Where a term has a **range**, the plan chooses the coefficients: of each range the high one where it feeds all choices of the
//! term, else the low one. Cost, bound, gap and our own certificate are of the coefficients that the plan chooses; so [`check`] and
//! [`plain`] are given the plan too, and in a job part 4 stands between parts 2 and 3. With a gap of 0 no plan that fits is cheaper
//! than this one, whatever the coefficients are within their ranges. [`search`] and [`penalty`] take the low coefficients.
//!
//! A job brings a register of its own: that it is accepted does not say that this is the farm's. `examples/own_register.rs` checks
//! a job with the farm's own, and `docs/LINKING.md` explains it.
//!
//! ```
//! use feedcheck::Refusal;
//!
//! let register = [0x10, 10, 0, 0, 0, 0x11, 4, 0, 0xE0, 1, 0x12, 1, 0, 0, 0, 0xFA, 0xFF, 0xFF, 0xFF, 0x1F];
//! assert_eq!(feedcheck::cost(&register, &[0x40, 1, 0, 0, 0]), Ok(4));
//! let refusal = feedcheck::cost(&register, &[0x40, 2, 0, 0, 0]).unwrap_err();
//! assert_eq!(refusal, Refusal { number: Refusal::NOT_THERE, part: 4, position: 0 });
//! assert_eq!(refusal.to_string(), "refusal 5 in part 4 at byte 0: something is named that is not there");
//! ```

pub mod raw;

pub use raw::{Counters, Register, Scheme, Tally};

/// The version of this crate, of `include/feedcheck.h` and of the libraries made from the same files; a library does not tell its
/// version. The minor number is that of the last change that users asked for (`docs/changes/R-NUMBER.md`), and the patch number
/// counts what came after it. Before 1.0 a new minor number may change calls and records, a new patch number does not.
pub const VERSION: &str = env!("CARGO_PKG_VERSION");

/// The most choices of a register.
pub const MAX_CHOICES: usize = 48;

/// The most terms of a register, and so the most splits of a scheme.
pub const MAX_TERMS: usize = 256;

/// The most windows of a register.
pub const MAX_WINDOWS: usize = 64;

/// The most rows of a register.
pub const MAX_ROWS: usize = 8;

/// The entries of a row, for choices 0 to 31; choices from 32 on are in no row.
pub const ROW_ENTRIES: usize = 32;

/// The minutes of the day on which the clocks go forward.
pub const SHORT_DAY: u16 = 1_380;

/// The minutes of a day on which the clocks are left alone, and of a register's day where it says no length.
pub const USUAL_DAY: u16 = 1_440;

/// The minutes of the day on which the clocks go back.
pub const LONG_DAY: u16 = 1_500;

/// The most products of a scheme; of more than 32 choices fewer, since these are variables too.
pub const MAX_PRODUCTS: usize = 32;

/// The most variables of a scheme, choices and products together.
pub const MAX_VARIABLES: usize = 64;

/// The largest factor of a scheme.
pub const MAX_FACTOR: u16 = 1_000;

/// How many suppliers a tally counts apart. Their numbers begin at 0.
pub const SUPPLIERS: usize = 16;

/// How many numbers a lent table must have.
pub const TABLE_NUMBERS: usize = 4_225;

/// A buffer of so many bytes is enough for every scheme that is built.
pub const MAX_BUILT: usize = 865;

/// A buffer of so many bytes is enough for every register that `costliest` writes.
pub const MAX_COSTLIEST: usize = 246;

/// A buffer of so many bytes is enough for every certificate that `plain` writes.
pub const MAX_PLAIN: usize = 1_294;

/// A buffer of so many bytes is enough for every listing, the farm's and the supplier's.
pub const MAX_LISTING: usize = 4_096;

/// No job of more bytes is accepted.
pub const MAX_JOB: usize = 27_100;

/// A longer job is answered as its first so many bytes are.
pub const MAX_JOB_READ: usize = 27_234;

/// The number of an answer of [`raw`] where nothing is refused.
pub const ACCEPTED: u8 = 0;

/// A refusal: its number, which docs/REFUSALS.md explains, the part (1 register, 2 scheme, 3 certificate, 4 plan) and the position
/// of the command that is refused, counted from the first byte of the part, or of the job where the call is given a whole job. Part
/// and position are 0 where no command causes it.
#[derive(Clone, Copy, Debug, PartialEq, Eq)]
pub struct Refusal {
    pub number: u8,
    pub part: u8,
    pub position: usize,
}

impl std::fmt::Display for Refusal {
    fn fmt(&self, f: &mut std::fmt::Formatter) -> std::fmt::Result {
        write!(f, "refusal {}", self.number)?;
        if self.part != 0 {
            write!(f, " in part {} at byte {}", self.part, self.position)?;
        }
        write!(f, ": {}", self.reason())
    }
}

/// The numbers, named as in the library's own code and in `include/feedcheck.h`; [`Refusal::reason`] tells what each means.
impl Refusal {
    pub const NO_COMMAND: u8 = 1;
    pub const CUT_SHORT: u8 = 2;
    pub const TOO_MANY: u8 = 3;
    pub const OUT_OF_RANGE: u8 = 4;
    pub const NOT_THERE: u8 = 5;
    pub const MISORDERED: u8 = 6;
    pub const NOT_RISING: u8 = 7;
    pub const SETS_UNFIT: u8 = 8;
    pub const FALLS_SHORT: u8 = 9;
    pub const NO_PRODUCT_LEFT: u8 = 10;
    pub const TOO_SHORT: u8 = 11;
    pub const PAST_END: u8 = 12;
    pub const OUTSIDE_WINDOWS: u8 = 13;
    pub const PAST_LIMIT: u8 = 14;
    pub const MISFIT: u8 = 15;
    pub const NONE_FITS: u8 = 16;
    pub const UNKNOWN_SUPPLIER: u8 = 17;
    pub const SHAPE_OUT_OF_RANGE: u8 = 18;

    /// What the number means.
    pub fn reason(&self) -> &'static str {
        match self.number {
            Refusal::NO_COMMAND => "a byte is not a command here",
            Refusal::CUT_SHORT => "the bytes end early",
            Refusal::TOO_MANY => "a count is above a limit, or splits or choices are missing",
            Refusal::OUT_OF_RANGE => "a number is out of range",
            Refusal::NOT_THERE => "something is named that is not there",
            Refusal::MISORDERED => "a pair is misordered",
            Refusal::NOT_RISING => "a choice, a window or a mask is not rising",
            Refusal::SETS_UNFIT => "sets don't fit",
            Refusal::FALLS_SHORT => "the certificate does not carry its target",
            Refusal::NO_PRODUCT_LEFT => "the builder needs a 33rd product or a 65th variable",
            Refusal::TOO_SHORT => "a lent table or buffer is short",
            Refusal::PAST_END => "bytes stand after the end",
            Refusal::OUTSIDE_WINDOWS => "a choice is outside its tank's windows",
            Refusal::PAST_LIMIT => "the search takes more visits than its limit",
            Refusal::MISFIT => "the plan does not fit the rows",
            Refusal::NONE_FITS => "no plan fits the rows",
            Refusal::UNKNOWN_SUPPLIER => "a supplier number is above 15",
            Refusal::SHAPE_OUT_OF_RANGE => "m is 0, d is below 3 or above 32, or m times d is above 32",
            _ => "no refusal",
        }
    }
}

impl std::error::Error for Refusal {}

/// The plan that a search found (bit i is set when choice i is fed), its cost with the low coefficients of ranges, and the number
/// of partial plans visited, the empty one, full ones and those left at once included; with n choices never more than 2 to the
/// power (n + 1), less 1. As part 4 the plan is the byte `0x40` and its lower 4 bytes where the others are 0, else `0x41` and all 8,
/// the lowest first.
#[derive(Clone, Copy, Debug, PartialEq, Eq)]
pub struct Found {
    pub plan: u64,
    pub cost: i64,
    pub visits: u32,
}

/// What an accepted job comes to: the bound, below which no plan that fits the register's rows costs, the cost of its plan, and
/// the gap, the cost less the bound. It is 0 or more, and no plan that fits is cheaper by more than the gap. Where there are
/// ranges these are with the coefficients that the plan chooses, and where the gap is 0, no plan that fits is cheaper with any
/// coefficients within the ranges.
#[derive(Clone, Copy, Debug, PartialEq, Eq)]
pub struct Outcome {
    pub bound: i64,
    pub cost: i64,
    pub gap: i64,
}

fn result<T>(number: u8, part: u8, position: usize, value: T) -> Result<T, Refusal> {
    if number == 0 {
        Ok(value)
    } else {
        Err(Refusal { number, part, position })
    }
}

/// Reads a register. A whole job is refused 12 with the position at which part 2 begins, if part 1 is right.
pub fn register(register: &[u8]) -> Result<Register, Refusal> {
    let answer = raw::register(register);
    result(answer.number, answer.part, answer.position, answer.register)
}

/// Reads a scheme of a register. Part 2 of a job with all that stands behind it is refused 12 in part 2 with the position at which
/// the next part begins, if part 2 is right: part 3 or, where the register has a range, part 4.
pub fn scheme(register: &[u8], scheme: &[u8]) -> Result<Scheme, Refusal> {
    let answer = raw::scheme(register, scheme);
    result(answer.number, answer.part, answer.position, answer.scheme)
}

/// Builds a scheme of a register, which says no factor, so that its factor is 1: how many bytes were written to the front of the
/// buffer. Refused 10 where a term needs a 33rd product, or one that is the 65th variable.
pub fn build(register: &[u8], buffer: &mut [u8]) -> Result<usize, Refusal> {
    let answer = raw::build(register, buffer);
    result(answer.number, answer.part, answer.position, answer.count)
}

/// Writes a register for which [`build`] forms m · (d - 2) products: how many bytes were written to the front of the buffer. For no
/// accepted register with at most m terms, none over more than d choices, does it form more, whatever else the register has. The base
/// cost is 0, the choices are m · d, of tank 1 at the minutes from 0 up, and term number t is of the d choices from number d · t on
/// and has the coefficient 1. m is 1 or more, d 3 to 32, and m · d, which does not wrap, at most 32; for any other m and d it is
/// refused 18, whatever the buffer's length.
pub fn costliest(m: u32, d: u32, buffer: &mut [u8]) -> Result<usize, Refusal> {
    let answer = raw::costliest(m, d, buffer);
    result(answer.number, answer.part, answer.position, answer.count)
}

/// The cost of a plan, of a range with the high coefficient. Refused 15 where the plan does not fit the register's rows. Parts 4
/// and 3 of a job with ranges are refused 12 in part 4 with the position at which part 3 begins, if part 4 is right.
pub fn cost(register: &[u8], plan: &[u8]) -> Result<i64, Refusal> {
    let answer = raw::cost(register, plan);
    result(answer.number, answer.part, answer.position, answer.cost)
}

/// Finds a plan that fits the register's rows and costs at most any other that fits, of equals the smallest number; costs are those
/// with the low coefficients of ranges. Refused 14 where that takes more visits than the limit; it stops there, so the limit bounds
/// the time of the call. As many as the limit are accepted. Refused 16 where no plan fits; 14 comes before it.
pub fn search(register: &[u8], limit: u32) -> Result<Found, Refusal> {
    let answer = raw::search(register, limit);
    let found = Found { plan: answer.plan, cost: answer.cost, visits: answer.visits };
    result(answer.number, answer.part, answer.position, found)
}

/// Leaves the penalty form in the table, a function of the scheme's variables for solvers that take no conditions. Where every
/// product is 1 just where both its operands are, the function is the cost of the plan that feeds the choices which are 1; its least
/// value over all 0s and 1s is the least cost. Where the register has rows, the least value over those whose choices fit is the
/// least cost of the plans that fit. Costs are those with the low coefficients of ranges.
///
/// The weight of a product is the sum of the absolute values of the coefficients, of ranges the low ones, of the terms that use it,
/// multiplied by the scheme's factor. A term uses the products of its split, their operands that are products, and so on down. The
/// higher the factor, the higher is the function where a product of weight above 0 is not that of its operands; elsewhere it is the
/// same. Its least value is the same with any factor. With a factor of 2 or more, all 0s and 1s that reach it and whose choices fit
/// have each product of weight above 0 equal to the product of its operands; with 1 others may reach it too.
///
/// The table has, row by row, (N + 1)² numbers for N variables, the choices and then the products: with y_0 = 1 and y_{i + 1} the
/// variable i, the function is half of the sum of all numbers, that of row i and column j times y_i · y_j. Numbers behind these stay
/// as they were, and all of them do where the call is refused.
pub fn penalty(register: &[u8], scheme: &[u8], table: &mut [i64]) -> Result<(), Refusal> {
    let answer = raw::penalty(register, scheme, table);
    result(answer.number, answer.part, answer.position, ())
}

/// Checks a certificate: the bound, below which no plan that fits the register's rows costs. Where the register has a range the
/// plan chooses the coefficients: it is read before the certificate, and refused as by [`cost`]. Where it has none the plan's
/// bytes are not looked at, and may be `&[]`. R, what the certificate leaves over (docs/SUPPLIERS.md), is left in the table where
/// the certificate's end command is reached, also where it is refused 9 there or 12 behind it. Refused 9 where in some row of R
/// the number on the diagonal is less than the absolute values of the others together.
pub fn check(register: &[u8], scheme: &[u8], certificate: &[u8], plan: &[u8], table: &mut [i64]) -> Result<i64, Refusal> {
    let answer = raw::check(register, scheme, certificate, plan, table);
    result(answer.number, answer.part, answer.position, answer.bound)
}

/// Writes a certificate that takes no solver, for a plan that is looked at as by [`check`]: how many bytes were written to the front
/// of the buffer. It is always accepted with this plan; its bound is often far below the least cost.
pub fn plain(register: &[u8], scheme: &[u8], plan: &[u8], buffer: &mut [u8]) -> Result<usize, Refusal> {
    let answer = raw::plain(register, scheme, plan, buffer);
    result(answer.number, answer.part, answer.position, answer.count)
}

/// A whole job of this supplier, 0 to 15, and the supplier's pair of the tally moved on; every other pair stays. Where the
/// register has a range its parts stand in the order 1, 2, 4, 3. Refused 15 where the plan does not fit the register's rows.
/// Refused 17, before anything else, where there is no such supplier; tally and table then stay as they were. R is left in the
/// table where the end command of part 3 is reached, also where the job is refused 9 there or behind it.
pub fn job(job: &[u8], table: &mut [i64], supplier: u8, tally: &mut Tally) -> Result<Outcome, Refusal> {
    let answer = raw::job(job, table, supplier, *tally);
    *tally = answer.tally;
    let outcome = Outcome { bound: answer.bound, cost: answer.cost, gap: answer.gap };
    result(answer.number, answer.part, answer.position, outcome)
}

/// Writes the farm's lines of a job: for each choice `T`, its number, tank and minute, for each choice that the plan feeds `F`,
/// tank and minute, and then `B`, bound, cost and gap; of a refused job the one line `R`, number and position, which is no refusal
/// of this call. How many bytes were written to the front of the buffer.
pub fn listing(job: &[u8], table: &mut [i64], buffer: &mut [u8]) -> Result<usize, Refusal> {
    let answer = raw::listing(job, table, buffer);
    result(answer.number, answer.part, answer.position, answer.count)
}

/// Writes what the supplier of a job may read: for each choice `C`, its number and 1 or 0 for fed or not, then the `B` line; of a
/// refused job the line that `listing` writes. How many bytes were written to the front of the buffer. No tank, minute or window is
/// in the lines: accepted jobs that differ only in tanks, minutes, "from" and "to" give the same ones, and the same table.
pub fn supplier_listing(job: &[u8], table: &mut [i64], buffer: &mut [u8]) -> Result<usize, Refusal> {
    let answer = raw::supplier_listing(job, table, buffer);
    result(answer.number, answer.part, answer.position, answer.count)
}
