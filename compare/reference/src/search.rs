//! The search for the cheapest plan that fits. Where a coefficient is known within a range it takes the low, and so
//! does the cost that it ends with.
//!
//! Choices are decided from the highest number down, unfed first. A partial plan is given by how many choices are undecided (the
//! lowest ones) and by those that are decided unfed; the rest is decided fed. Its sum is that of base cost, coefficients of terms
//! wholly decided fed, and negative coefficients of terms with an undecided choice and none decided unfed.

use crate::register::{Register, Row, Term, MAX_CHOICES, ROW_ENTRIES};

/// The plan that a search ends with, its cost, and how many partial plans were visited.
#[derive(Clone, Copy, Debug, Default, PartialEq, Eq)]
pub struct Found {
    pub plan: u64,
    pub cost: i64,
    pub visits: u32,
}

/// Why a search ends with no plan.
#[derive(Clone, Copy, Debug, PartialEq, Eq)]
pub enum NotFound {
    /// It came to the visit that passes the limit.
    PastLimit,
    /// Its visits are within the limit, and it met no plan that fits.
    NoneFits,
}

/// The search. Only full plans that fit are met; one that doesn't is a visit that changes nothing. The sum is carried from one
/// partial plan to the next: with a choice that is decided unfed it loses the negative terms that name the choice, with one that is
/// decided fed it wins the positive terms of which this was the last undecided choice, in both cases only those that name no choice
/// decided unfed before.
pub fn search(register: &Register, limit: u32) -> Result<Found, NotFound> {
    let [mut lost, mut won]: [[List; MAX_CHOICES]; 2] = std::array::from_fn(|_| std::array::from_fn(|_| List::default()));
    let mut sum = register.base as i64;
    for term in &register.terms {
        if term.low < 0 {
            sum += term.low as i64;
            let mut named = term.mask;
            while named != 0 {
                lost[named.trailing_zeros() as usize].push(term);
                named &= named - 1;
            }
        } else {
            won[term.mask.trailing_zeros() as usize].push(term);
        }
    }

    let mut undecided = register.choices.len();
    let mut unfed = 0;
    // The sums of the partial plans on the way to this one, by the number of choices undecided there.
    let mut sums = [0; MAX_CHOICES + 1];
    // Until a full plan that fits is met, above every sum.
    let mut best = i64::MAX;
    let mut plan = None;
    let mut visits = 0;
    loop {
        if visits == limit {
            return Err(NotFound::PastLimit);
        }
        visits += 1;
        if sum < best {
            if undecided > 0 {
                sums[undecided] = sum;
                undecided -= 1;
                sum -= lost[undecided].sum_without(unfed);
                unfed |= 1 << undecided;
                continue;
            }
            let full = register.all() & !unfed;
            if register.fits(full) {
                best = sum;
                plan = Some(full);
            }
        }
        // The last choice that was decided unfed is the lowest of them; now it is fed.
        if unfed == 0 {
            return plan.map(|plan| Found { plan, cost: best, visits }).ok_or(NotFound::NoneFits);
        }
        undecided = unfed.trailing_zeros() as usize;
        unfed &= unfed - 1;
        sum = sums[undecided + 1] + won[undecided].sum_without(unfed);
    }
}

/// How many terms are looked at together.
const LANES: usize = 8;

/// Masks and coefficients of terms, so many together; places left over have coefficient 0.
#[derive(Default)]
struct List {
    terms: usize,
    blocks: Vec<([u64; LANES], [i32; LANES])>,
}

impl List {
    fn push(&mut self, term: &Term) {
        let lane = self.terms % LANES;
        if lane == 0 {
            self.blocks.push(Default::default());
        }
        let (masks, coefficients) = self.blocks.last_mut().unwrap();
        masks[lane] = term.mask;
        coefficients[lane] = term.low;
        self.terms += 1;
    }

    /// The sum of the coefficients of the terms that name none of these choices. It has no branch for a term, so that the lanes
    /// are taken together. The coefficients of all terms of a register come to 256,000,000 at most, within 32 bits.
    #[inline]
    fn sum_without(&self, choices: u64) -> i64 {
        let mut sums = [0; LANES];
        for (masks, coefficients) in &self.blocks {
            for lane in 0..LANES {
                let all_or_none = -((masks[lane] & choices == 0) as i32);
                sums[lane] += coefficients[lane] & all_or_none;
            }
        }
        sums.iter().sum::<i32>() as i64
    }
}

/// The search again, slow and word for word as the request has it, to try the other with.
pub fn word_for_word(register: &Register, limit: u32) -> Result<Found, NotFound> {
    let mut search = WordForWord { register, limit, visits: 0, best: None };
    search.visit(0, 0)?;
    let (plan, cost) = search.best.ok_or(NotFound::NoneFits)?;
    Ok(Found { plan, cost, visits: search.visits })
}

struct WordForWord<'a> {
    register: &'a Register,
    limit: u32,
    visits: u32,
    /// The best full plan met so far, among those that fit, and its cost.
    best: Option<(u64, i64)>,
}

impl WordForWord<'_> {
    /// Visits a partial plan and, unless it is left, those after it; a refusal when the visits pass the limit.
    fn visit(&mut self, fed: u64, unfed: u64) -> Result<(), NotFound> {
        if self.visits == self.limit {
            return Err(NotFound::PastLimit);
        }
        self.visits += 1;
        let undecided = self.register.all() & !fed & !unfed;
        let mut sum = self.register.base as i64;
        for term in &self.register.terms {
            let wholly_decided_fed = term.fed(fed);
            let open = term.mask & undecided != 0 && term.mask & unfed == 0;
            if wholly_decided_fed || open && term.low < 0 {
                sum += term.low as i64;
            }
        }
        if self.best.is_some_and(|(_, cost)| sum >= cost) {
            return Ok(());
        }
        if undecided == 0 {
            let fits = |row: &Row| {
                let fed_entries = (0..ROW_ENTRIES).filter(|i| fed & 1 << i != 0).map(|i| row.entries[i] as i64);
                fed_entries.sum::<i64>() == row.total as i64
            };
            if self.register.rows.iter().all(fits) {
                self.best = Some((fed, sum));
            }
            return Ok(());
        }
        let highest = 1 << undecided.ilog2();
        self.visit(fed, unfed | highest)?;
        self.visit(fed | highest, unfed)
    }
}
