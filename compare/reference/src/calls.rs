//! The twelve calls.

use crate::search::{self as searches, Found, NotFound};
use crate::wire::{alone, Fault, Read};
use crate::{
    builder, certificate, costliest as costliests, plain as own, plan as plans, register as registers, scheme as schemes, table,
};

/// A refusal's number, part and position.
#[derive(Clone, Copy, Debug, Default, PartialEq, Eq)]
pub struct Refusal {
    pub number: u8,
    pub part: u8,
    pub position: usize,
}

impl Refusal {
    fn of(part: u8, fault: Fault) -> Refusal {
        Refusal { number: fault.number, part, position: fault.position }
    }

    /// Refusal 11: no command causes it.
    const SHORT: Refusal = Refusal { number: 11, part: 0, position: 0 };

    /// Refusal 14, likewise.
    const PAST_LIMIT: Refusal = Refusal { number: 14, part: 0, position: 0 };

    /// Refusal 16, likewise.
    const NONE_FITS: Refusal = Refusal { number: 16, part: 0, position: 0 };

    /// Refusal 17, likewise.
    const NO_SUPPLIER: Refusal = Refusal { number: 17, part: 0, position: 0 };

    /// Refusal 18, likewise.
    const SHAPE: Refusal = Refusal { number: 18, part: 0, position: 0 };
}

pub type Answer<T> = Result<T, Refusal>;

/// The count of supplier numbers, which begin at 0.
pub const SUPPLIERS: usize = 16;

/// A supplier's accepted and refused jobs.
#[derive(Clone, Copy, Debug, Default, PartialEq, Eq)]
pub struct Counters {
    pub accepted: u32,
    pub refused: u32,
}

/// The counters of each supplier, by its number.
pub type Tally = [Counters; SUPPLIERS];

#[derive(Clone, Copy, Debug, Default, PartialEq, Eq)]
pub struct Outcome {
    pub bound: i64,
    pub cost: i64,
    pub gap: i64,
}

pub fn register(bytes: &[u8]) -> Answer<registers::Register> {
    alone(bytes, registers::read(bytes)).map_err(|fault| Refusal::of(1, fault))
}

fn register_and_scheme(part1: &[u8], part2: &[u8]) -> Answer<(registers::Register, schemes::Scheme)> {
    let register = register(part1)?;
    let scheme = alone(part2, schemes::read(&register, part2)).map_err(|fault| Refusal::of(2, fault))?;
    Ok((register, scheme))
}

pub fn scheme(part1: &[u8], part2: &[u8]) -> Answer<schemes::Scheme> {
    Ok(register_and_scheme(part1, part2)?.1)
}

pub fn build(part1: &[u8], buffer: &mut [u8]) -> Answer<usize> {
    let scheme = builder::build(&register(part1)?).map_err(|fault| Refusal::of(1, fault))?;
    write(&scheme.bytes(), buffer)
}

pub fn costliest(m: u32, d: u32, buffer: &mut [u8]) -> Answer<usize> {
    write(&costliests::bytes(m, d).ok_or(Refusal::SHAPE)?, buffer)
}

pub fn cost(part1: &[u8], part4: &[u8]) -> Answer<i64> {
    let register = register(part1)?;
    let plan = alone(part4, plans::read(&register, part4)).map_err(|fault| Refusal::of(4, fault))?;
    Ok(plans::cost(&register, plan))
}

pub fn search(part1: &[u8], limit: u32) -> Answer<Found> {
    searches::search(&register(part1)?, limit).map_err(|reason| match reason {
        NotFound::PastLimit => Refusal::PAST_LIMIT,
        NotFound::NoneFits => Refusal::NONE_FITS,
    })
}

pub fn penalty(part1: &[u8], part2: &[u8], lent: &mut [i64]) -> Answer<()> {
    long_enough(lent)?;
    let (register, scheme) = register_and_scheme(part1, part2)?;
    schemes::penalty(&register, &scheme).write(lent);
    Ok(())
}

pub fn check(part1: &[u8], part2: &[u8], part3: &[u8], part4: &[u8], lent: &mut [i64]) -> Answer<i64> {
    long_enough(lent)?;
    let (register, scheme) = register_and_scheme(part1, part2)?;
    let plan = plan_beside(&register, part4)?;
    alone(part3, check_part(&register, &scheme, plan, part3, lent)).map_err(|fault| Refusal::of(3, fault))
}

/// The plan beside which a certificate stands. Part 4 is looked at only where a term came as a range; elsewhere the coefficients
/// are the same beside every plan.
fn plan_beside(register: &registers::Register, part4: &[u8]) -> Answer<u64> {
    if register.has_range() {
        alone(part4, plans::read(register, part4)).map_err(|fault| Refusal::of(4, fault))
    } else {
        Ok(plans::FEEDS_NONE)
    }
}

/// Reads the certificate at the front of the bytes, leaves R in the table once `3F` is reached, and refuses 9 where a row falls
/// short. The bound and the position past the certificate.
fn check_part(register: &registers::Register, scheme: &schemes::Scheme, plan: u64, bytes: &[u8], lent: &mut [i64]) -> Read<i64> {
    let (certificate, end) = certificate::read(register, scheme, bytes)?;
    let residual = certificate::residual(register, scheme, plan, &certificate);
    residual.write(lent);
    if !residual.dominant() {
        return Err(Fault { number: 9, position: certificate.end });
    }
    Ok((certificate.bound(), end))
}

pub fn plain(part1: &[u8], part2: &[u8], part4: &[u8], buffer: &mut [u8]) -> Answer<usize> {
    let (register, scheme) = register_and_scheme(part1, part2)?;
    let plan = plan_beside(&register, part4)?;
    write(&own::certificate(&register, &scheme, plan).bytes(), buffer)
}

pub fn job(bytes: &[u8], lent: &mut [i64], supplier: u8, mut tally: Tally) -> (Answer<Outcome>, Tally) {
    let Some(Counters { accepted, refused }) = tally.get_mut(supplier as usize) else {
        return (Err(Refusal::NO_SUPPLIER), tally);
    };
    let answer = whole_job(bytes, lent).map(|(outcome, _, _)| outcome);
    let counter = if answer.is_ok() { accepted } else { refused };
    *counter = counter.saturating_add(1);
    (answer, tally)
}

fn whole_job(bytes: &[u8], lent: &mut [i64]) -> Answer<(Outcome, registers::Register, u64)> {
    long_enough(lent)?;
    let (register, start2) = registers::read(bytes).map_err(|fault| later(1, 0, fault))?;
    let (scheme, length) = schemes::read(&register, &bytes[start2..]).map_err(|fault| later(2, start2, fault))?;
    let rest = start2 + length;
    let (bound, plan) = if register.has_range() {
        plan_and_certificate(&register, &scheme, bytes, rest, lent)?
    } else {
        certificate_and_plan(&register, &scheme, bytes, rest, lent)?
    };
    let cost = plans::cost(&register, plan);
    Ok((Outcome { bound, cost, gap: cost - bound }, register, plan))
}

/// The bound and the plan of a job whose certificate starts here and whose plan follows.
fn certificate_and_plan(
    register: &registers::Register,
    scheme: &schemes::Scheme,
    job: &[u8],
    start3: usize,
    lent: &mut [i64],
) -> Answer<(i64, u64)> {
    let read = check_part(register, scheme, plans::FEEDS_NONE, &job[start3..], lent);
    let (bound, length) = read.map_err(|fault| later(3, start3, fault))?;
    let start4 = start3 + length;
    let read = plans::read(register, &job[start4..]);
    let plan = alone(&job[start4..], read).map_err(|fault| later(4, start4, fault))?;
    Ok((bound, plan))
}

/// The same where a term came as a range: the plan starts here, and the certificate follows.
fn plan_and_certificate(
    register: &registers::Register,
    scheme: &schemes::Scheme,
    job: &[u8],
    start4: usize,
    lent: &mut [i64],
) -> Answer<(i64, u64)> {
    let (plan, length) = plans::read(register, &job[start4..]).map_err(|fault| later(4, start4, fault))?;
    let start3 = start4 + length;
    let read = check_part(register, scheme, plan, &job[start3..], lent);
    let bound = alone(&job[start3..], read).map_err(|fault| later(3, start3, fault))?;
    Ok((bound, plan))
}

/// A fault of a part that starts in the middle of a job.
fn later(part: u8, start: usize, fault: Fault) -> Refusal {
    Refusal { number: fault.number, part, position: start + fault.position }
}

/// The farm's listing.
pub fn listing(bytes: &[u8], lent: &mut [i64], buffer: &mut [u8]) -> Answer<usize> {
    list(bytes, lent, buffer, farm_lines)
}

/// The supplier's listing.
pub fn supplier_listing(bytes: &[u8], lent: &mut [i64], buffer: &mut [u8]) -> Answer<usize> {
    list(bytes, lent, buffer, supplier_lines)
}

/// Writes the lines that a reader is shown of a job's choices, and its `B` line; of a refused job the `R` line alone.
fn list(
    bytes: &[u8],
    lent: &mut [i64],
    buffer: &mut [u8],
    choice_lines: fn(&registers::Register, u64) -> String,
) -> Answer<usize> {
    long_enough(lent)?;
    let text = match whole_job(bytes, lent) {
        Ok((Outcome { bound, cost, gap }, register, plan)) => {
            choice_lines(&register, plan) + &format!("B {bound} {cost} {gap}\n")
        }
        Err(refusal) => format!("R {} {}\n", refusal.number, refusal.position),
    };
    write(text.as_bytes(), buffer)
}

fn farm_lines(register: &registers::Register, plan: u64) -> String {
    let choices = || register.choices.iter().enumerate();
    let all = choices().map(|(i, choice)| format!("T {i} {} {}\n", choice.tank, choice.minute));
    let fed = choices().filter(|(i, _)| plan & 1 << i != 0).map(|(_, choice)| format!("F {} {}\n", choice.tank, choice.minute));
    all.chain(fed).collect()
}

fn supplier_lines(register: &registers::Register, plan: u64) -> String {
    (0..register.choices.len()).map(|i| format!("C {i} {}\n", plan >> i & 1)).collect()
}

fn long_enough(lent: &[i64]) -> Answer<()> {
    if lent.len() < table::NUMBERS {
        return Err(Refusal::SHORT);
    }
    Ok(())
}

/// Writes the bytes to the front of the buffer, or refuses a buffer that is too short. Their count.
fn write(bytes: &[u8], buffer: &mut [u8]) -> Answer<usize> {
    let front = buffer.get_mut(..bytes.len()).ok_or(Refusal::SHORT)?;
    front.copy_from_slice(bytes);
    Ok(bytes.len())
}
