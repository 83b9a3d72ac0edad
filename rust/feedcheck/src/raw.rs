//! The calls with their answers as they stand in `include/feedcheck.h`, which explains every field: for accepted and refused input
//! alike. An answer's number is [`ACCEPTED`](crate::ACCEPTED) or one of [`Refusal`](crate::Refusal); on a refusal every field but
//! number, part, position and tally is 0.
//!
//! A Rust slice's pointer is never null and is aligned, and a lent slice overlaps nothing else, which is all that the calls ask.

use crate::{MAX_CHOICES, MAX_PRODUCTS, MAX_ROWS, MAX_TERMS, MAX_WINDOWS, ROW_ENTRIES, SUPPLIERS};

/// What a register says. choices, terms, windows and rows count the entries of the arrays; entries past the counts are 0.
///
/// - base is the cost that every plan has, -1,000,000,000 to 1,000,000,000.
/// - day_length, in minutes, is SHORT_DAY, USUAL_DAY or LONG_DAY, and 0 on a refusal. Minutes are counted from 0 at the day's
///   beginning; every minute is below day_length, and no window ends after it.
/// - Choice number i is of the tank tanks\[i\], 1 to 9,999, at the minute minutes\[i\]. There is at least one choice. Choices rise by
///   tank and then by minute.
/// - Term number t is of each choice i for which bit i of masks\[t\] is set, at least one. Masks rise. Where ranged\[t\] is
///   false its coefficient is coefficients\[t\], which is not 0, and highs\[t\] is the same number. Where ranged\[t\] is true the term
///   has a range, from coefficients\[t\] to highs\[t\]; each may be 0, and they may be equal, and it is of choices 0 to 31.
///   Coefficients, low and high, are -1,000,000 to 1,000,000.
/// - Window number w is of the tank window_tanks\[w\]: window_froms\[w\] is its first minute, window_tos\[w\] the first minute after
///   it. Where a tank has no window, every minute of the day is allowed. Windows rise by tank and then by first minute; they may
///   overlap.
/// - Row number k has the total row_totals\[k\], -4,064 to 4,064, and for each choice j below ROW_ENTRIES the entry
///   row_entries\[ROW_ENTRIES * k + j\], 0 where there is no choice j; choices from ROW_ENTRIES on are in no row. A plan fits where,
///   for each row, the entries of the choices that it feeds add up to the row's total.
#[derive(Clone, Copy, Debug, PartialEq, Eq)]
#[repr(C)]
pub struct Register {
    pub base: i32,
    pub day_length: u16,
    pub choices: usize,
    pub terms: usize,
    pub tanks: [u16; MAX_CHOICES],
    pub minutes: [u16; MAX_CHOICES],
    pub masks: [u64; MAX_TERMS],
    pub coefficients: [i32; MAX_TERMS],
    pub highs: [i32; MAX_TERMS],
    pub ranged: [bool; MAX_TERMS],
    pub windows: usize,
    pub window_tanks: [u16; MAX_WINDOWS],
    pub window_froms: [u16; MAX_WINDOWS],
    pub window_tos: [u16; MAX_WINDOWS],
    pub rows: usize,
    pub row_totals: [i16; MAX_ROWS],
    pub row_entries: [i8; MAX_ROWS * ROW_ENTRIES],
}

impl Register {
    /// Whether a term has a range, be its two coefficients equal. The plan of a job then stands before the certificate, and
    /// [`check`](crate::check) and [`plain`](crate::plain) read the plan that they are given.
    pub fn has_range(&self) -> bool {
        self.ranged[..self.terms].contains(&true)
    }
}

/// What a scheme says. Variables 0 to n - 1 are the register's n choices, and variable n + k is product number k: 1 where both its
/// operands are 1, which are the variables lefts\[k\] and rights\[k\], with lefts\[k\] < rights\[k\] < n + k. There are as many splits
/// as the register has terms. Term number t is the product of the variables split_lefts\[t\] and split_rights\[t\], the left at most
/// the right; where they are the same it is that variable. Entries past the counts are 0. n and products together are at most
/// MAX_VARIABLES. factor, 1 to MAX_FACTOR, is what the weights of the penalty form are multiplied by ([`penalty`](crate::penalty)): 1
/// where the scheme says none, and 0 on a refusal. Nothing else depends on it.
#[derive(Clone, Copy, Debug, PartialEq, Eq)]
#[repr(C)]
pub struct Scheme {
    pub products: usize,
    pub splits: usize,
    pub lefts: [u8; MAX_PRODUCTS],
    pub rights: [u8; MAX_PRODUCTS],
    pub split_lefts: [u8; MAX_TERMS],
    pub split_rights: [u8; MAX_TERMS],
    pub factor: u16,
}

/// How many jobs of one supplier were accepted and refused; each count stays at 4,294,967,295.
#[derive(Clone, Copy, Debug, Default, PartialEq, Eq)]
#[repr(C)]
pub struct Counters {
    pub accepted: u32,
    pub refused: u32,
}

/// A count of jobs, kept by the program from one job to the next: the counters of each supplier, by its number. A job moves one
/// counter of its own supplier's pair; one that is refused 17 moves none.
#[derive(Clone, Copy, Debug, Default, PartialEq, Eq)]
#[repr(C)]
pub struct Tally {
    pub pairs: [Counters; SUPPLIERS],
}

#[derive(Clone, Copy, Debug, PartialEq, Eq)]
#[repr(C)]
pub struct RegisterAnswer {
    pub number: u8,
    pub part: u8,
    pub position: usize,
    pub register: Register,
}

#[derive(Clone, Copy, Debug, PartialEq, Eq)]
#[repr(C)]
pub struct SchemeAnswer {
    pub number: u8,
    pub part: u8,
    pub position: usize,
    pub scheme: Scheme,
}

/// The answer of the calls that write bytes. count: those that were written to the front of the buffer.
#[derive(Clone, Copy, Debug, PartialEq, Eq)]
#[repr(C)]
pub struct WriterAnswer {
    pub number: u8,
    pub part: u8,
    pub position: usize,
    pub count: usize,
}

#[derive(Clone, Copy, Debug, PartialEq, Eq)]
#[repr(C)]
pub struct CostAnswer {
    pub number: u8,
    pub part: u8,
    pub position: usize,
    pub cost: i64,
}

/// Bit i of the plan is set where choice i is fed. The cost is that with the low coefficients where there are ranges.
#[derive(Clone, Copy, Debug, PartialEq, Eq)]
#[repr(C)]
pub struct SearchAnswer {
    pub number: u8,
    pub part: u8,
    pub position: usize,
    pub plan: u64,
    pub cost: i64,
    pub visits: u32,
}

#[derive(Clone, Copy, Debug, PartialEq, Eq)]
#[repr(C)]
pub struct PenaltyAnswer {
    pub number: u8,
    pub part: u8,
    pub position: usize,
}

#[derive(Clone, Copy, Debug, PartialEq, Eq)]
#[repr(C)]
pub struct CheckAnswer {
    pub number: u8,
    pub part: u8,
    pub position: usize,
    pub bound: i64,
}

#[derive(Clone, Copy, Debug, PartialEq, Eq)]
#[repr(C)]
pub struct JobAnswer {
    pub number: u8,
    pub part: u8,
    pub position: usize,
    pub bound: i64,
    pub cost: i64,
    pub gap: i64,
    pub tally: Tally,
}

mod linked {
    use super::*;

    extern "C" {
        pub fn feedcheck_register(register: *const u8, register_length: usize) -> RegisterAnswer;
        pub fn feedcheck_scheme(
            register: *const u8,
            register_length: usize,
            scheme: *const u8,
            scheme_length: usize,
        ) -> SchemeAnswer;
        pub fn feedcheck_build(
            register: *const u8,
            register_length: usize,
            buffer: *mut u8,
            buffer_length: usize,
        ) -> WriterAnswer;
        pub fn feedcheck_costliest(m: u32, d: u32, buffer: *mut u8, buffer_length: usize) -> WriterAnswer;
        pub fn feedcheck_cost(register: *const u8, register_length: usize, plan: *const u8, plan_length: usize) -> CostAnswer;
        pub fn feedcheck_search(register: *const u8, register_length: usize, limit: u32) -> SearchAnswer;
        pub fn feedcheck_penalty(
            register: *const u8,
            register_length: usize,
            scheme: *const u8,
            scheme_length: usize,
            table: *mut i64,
            table_length: usize,
        ) -> PenaltyAnswer;
        pub fn feedcheck_check(
            register: *const u8,
            register_length: usize,
            scheme: *const u8,
            scheme_length: usize,
            certificate: *const u8,
            certificate_length: usize,
            plan: *const u8,
            plan_length: usize,
            table: *mut i64,
            table_length: usize,
        ) -> CheckAnswer;
        pub fn feedcheck_plain(
            register: *const u8,
            register_length: usize,
            scheme: *const u8,
            scheme_length: usize,
            plan: *const u8,
            plan_length: usize,
            buffer: *mut u8,
            buffer_length: usize,
        ) -> WriterAnswer;
        pub fn feedcheck_job(
            job: *const u8,
            job_length: usize,
            table: *mut i64,
            table_length: usize,
            supplier: u8,
            tally: Tally,
        ) -> JobAnswer;
        pub fn feedcheck_listing(
            job: *const u8,
            job_length: usize,
            table: *mut i64,
            table_length: usize,
            buffer: *mut u8,
            buffer_length: usize,
        ) -> WriterAnswer;
        pub fn feedcheck_supplier_listing(
            job: *const u8,
            job_length: usize,
            table: *mut i64,
            table_length: usize,
            buffer: *mut u8,
            buffer_length: usize,
        ) -> WriterAnswer;
    }
}

pub fn register(register: &[u8]) -> RegisterAnswer {
    unsafe { linked::feedcheck_register(register.as_ptr(), register.len()) }
}

pub fn scheme(register: &[u8], scheme: &[u8]) -> SchemeAnswer {
    unsafe { linked::feedcheck_scheme(register.as_ptr(), register.len(), scheme.as_ptr(), scheme.len()) }
}

pub fn build(register: &[u8], buffer: &mut [u8]) -> WriterAnswer {
    unsafe { linked::feedcheck_build(register.as_ptr(), register.len(), buffer.as_mut_ptr(), buffer.len()) }
}

pub fn costliest(m: u32, d: u32, buffer: &mut [u8]) -> WriterAnswer {
    unsafe { linked::feedcheck_costliest(m, d, buffer.as_mut_ptr(), buffer.len()) }
}

pub fn cost(register: &[u8], plan: &[u8]) -> CostAnswer {
    unsafe { linked::feedcheck_cost(register.as_ptr(), register.len(), plan.as_ptr(), plan.len()) }
}

pub fn search(register: &[u8], limit: u32) -> SearchAnswer {
    unsafe { linked::feedcheck_search(register.as_ptr(), register.len(), limit) }
}

pub fn penalty(register: &[u8], scheme: &[u8], table: &mut [i64]) -> PenaltyAnswer {
    unsafe {
        linked::feedcheck_penalty(
            register.as_ptr(),
            register.len(),
            scheme.as_ptr(),
            scheme.len(),
            table.as_mut_ptr(),
            table.len(),
        )
    }
}

pub fn check(register: &[u8], scheme: &[u8], certificate: &[u8], plan: &[u8], table: &mut [i64]) -> CheckAnswer {
    unsafe {
        linked::feedcheck_check(
            register.as_ptr(),
            register.len(),
            scheme.as_ptr(),
            scheme.len(),
            certificate.as_ptr(),
            certificate.len(),
            plan.as_ptr(),
            plan.len(),
            table.as_mut_ptr(),
            table.len(),
        )
    }
}

pub fn plain(register: &[u8], scheme: &[u8], plan: &[u8], buffer: &mut [u8]) -> WriterAnswer {
    unsafe {
        linked::feedcheck_plain(
            register.as_ptr(),
            register.len(),
            scheme.as_ptr(),
            scheme.len(),
            plan.as_ptr(),
            plan.len(),
            buffer.as_mut_ptr(),
            buffer.len(),
        )
    }
}

pub fn job(job: &[u8], table: &mut [i64], supplier: u8, tally: Tally) -> JobAnswer {
    unsafe { linked::feedcheck_job(job.as_ptr(), job.len(), table.as_mut_ptr(), table.len(), supplier, tally) }
}

pub fn listing(job: &[u8], table: &mut [i64], buffer: &mut [u8]) -> WriterAnswer {
    list(linked::feedcheck_listing, job, table, buffer)
}

pub fn supplier_listing(job: &[u8], table: &mut [i64], buffer: &mut [u8]) -> WriterAnswer {
    list(linked::feedcheck_supplier_listing, job, table, buffer)
}

/// Either listing, which are lent alike.
fn list(
    call: unsafe extern "C" fn(*const u8, usize, *mut i64, usize, *mut u8, usize) -> WriterAnswer,
    job: &[u8],
    table: &mut [i64],
    buffer: &mut [u8],
) -> WriterAnswer {
    unsafe { call(job.as_ptr(), job.len(), table.as_mut_ptr(), table.len(), buffer.as_mut_ptr(), buffer.len()) }
}
