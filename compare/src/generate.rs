//! Generated inputs: parts that are right, then most of them damaged.

use crate::random::Random;
use reference::certificate::{self, Certificate, Multiplier, Square};
use reference::register::{
    Choice, Register, Row, Term, Window, DAY_LENGTHS, LONG_DAY, MAX_CHOICES, MAX_COEFFICIENT, MAX_ROWS, MAX_ROW_TOTAL, MAX_TERMS,
    MAX_WINDOWS, ROW_ENTRIES, SHORT_DAY, USUAL_DAY,
};
use reference::scheme::{Scheme, MAX_FACTOR, MAX_PRODUCTS, MAX_VARIABLES};
use reference::{builder, plain, plan as plans};
use std::collections::{BTreeMap, BTreeSet};

/// The bytes of the four parts, each by itself, those of a job, and those that the check and the plain certificate are lent as
/// part 4.
#[derive(Clone, Default)]
pub struct Input {
    pub parts: [Vec<u8>; 4],
    pub job: Vec<u8>,
    pub beside: Vec<u8>,
}

/// The commands of the four parts before they are damaged, with the counts of choices and variables.
#[derive(Clone)]
pub struct Whole {
    pub choices: usize,
    pub variables: usize,
    pub parts: [Vec<Vec<u8>>; 4],
}

/// How large an input is.
#[derive(Clone, Copy, PartialEq, Eq)]
pub enum Size {
    Small,
    /// More than 32 choices, and else as small.
    Wide,
    Middle,
    Full,
}

pub fn input(random: &mut Random, seeds: &[Whole]) -> Input {
    let mut whole = if !seeds.is_empty() && random.chance(3) {
        let mut whole = seeds[random.below(seeds.len())].clone();
        if random.chance(20) {
            add_rows(random, &mut whole);
        }
        if random.chance(20) {
            add_ranges(random, &mut whole);
        }
        add_wide_forms(random, &mut whole);
        whole
    } else {
        let size = random.pick(&[
            Size::Small,
            Size::Small,
            Size::Small,
            Size::Small,
            Size::Wide,
            Size::Wide,
            Size::Middle,
            Size::Middle,
            Size::Full,
        ]);
        whole(random, size)
    };
    // The usual length may be said too.
    let commands = &mut whole.parts[0];
    if commands.iter().all(|command| command[0] != 0x18) && random.chance(30) {
        commands.insert(1, day_command(USUAL_DAY));
    }
    add_factor(random, &mut whole.parts[1]);
    damaged(random, whole)
}

/// Four parts that are right, but that R may fall short.
pub fn whole(random: &mut Random, size: Size) -> Whole {
    let (mut register, scheme) =
        if size != Size::Full && random.chance(40) { built(random, size) } else { products_first(random, size) };
    let length = random.pick(&[SHORT_DAY, USUAL_DAY, USUAL_DAY, LONG_DAY]);
    // Choices up to the end of the day, or up to the first minute that a shorter day doesn't have.
    let end = random.pick(&[length, length, SHORT_DAY + 1, USUAL_DAY + 1]).min(length);
    register.day_length = length;
    register.choices = choices(random, register.choices.len(), end);
    register.windows = windows(random, &register);
    let all = register.all();
    // Of more than 32 choices now and then only some that a `40` can name.
    let plan = random.next() & all & random.pick(&[all, all, all, LOWER]);
    register.rows = rows(random, register.choices.len(), plan);
    ranges(random, &mut register);
    // Now and then the certificate is one for another plan.
    let any = random.next() & all;
    let beside = if random.chance(6) { random.pick(&[plans::FEEDS_NONE, all, any]) } else { plan };
    let certificate = any_certificate(random, size, &register, &scheme, beside);
    let mut whole = Whole {
        choices: register.choices.len(),
        variables: scheme.variables(),
        parts: [
            register_commands(&register),
            scheme_commands(&scheme),
            certificate_commands(random, &certificate),
            vec![plan_command(plan)],
        ],
    };
    add_wide_forms(random, &mut whole);
    whole
}

/// The commands of a job whose register, scheme and certificate can be read, and its plan where it stands before the certificate,
/// to be damaged; `None` for any other.
pub fn seed(job: &[u8]) -> Option<Whole> {
    let (register, at) = reference::register::read(job).ok()?;
    let rest = &job[at..];
    let (scheme, at) = reference::scheme::read(&register, rest).ok()?;
    let rest = &rest[at..];
    let (certificate, plan) = if register.has_range() {
        let (_, at) = plans::read(&register, rest).ok()?;
        (certificate::read(&register, &scheme, &rest[at..]).ok()?.0, &rest[..at])
    } else {
        let (certificate, at) = certificate::read(&register, &scheme, rest).ok()?;
        (certificate, &rest[at..])
    };
    Some(Whole {
        choices: register.choices.len(),
        variables: scheme.variables(),
        parts: [register_commands(&register), scheme_commands(&scheme), in_order(&certificate), vec![plan.to_vec()]],
    })
}

/// The m and d that a costliest register is asked for: of one that there is, of one that is just too large or small, small numbers,
/// at a limit of their width, with a higher bit set in one that there is, or with a product that wraps to 32 or less.
pub fn shape(random: &mut Random) -> (u32, u32) {
    let d = random.within(3, 32);
    let right = (random.within(1, 32 / d) as u32, d as u32);
    let any = random.next() as u32;
    let notable = [0, 1, 2, 3, 31, 32, 33, 255, 256, 1 << 16, 1 << 30, 1 << 31, u32::MAX, any];
    let (m, d) = match random.below(10) {
        0..=3 => right,
        4 => (right.0, right.1 + random.below(3) as u32),
        5 => (random.within(0, 32 / d + 1) as u32, right.1),
        6 => (random.below(40) as u32, random.below(40) as u32),
        7 => (random.pick(&notable), random.pick(&notable)),
        8 => (right.0 | random.pick(&[1 << 8, 1 << 16, 1 << 31, any << 8]), right.1),
        _ => (((random.within(1, d - 1) as u64) << 32).div_ceil(d as u64) as u32, right.1),
    };
    if random.chance(10) {
        (d, m)
    } else {
        (m, d)
    }
}

// Registers and schemes.

/// The choices that a mask or a plan of 32 bits names.
const LOWER: u64 = u32::MAX as u64;

/// The mask of n choices.
fn all_of(n: usize) -> u64 {
    (1 << n) - 1
}

/// The products that there may be beside so many choices.
fn most_products(choices: usize) -> usize {
    MAX_PRODUCTS.min(MAX_VARIABLES - choices)
}

fn choice_count(random: &mut Random, size: Size) -> usize {
    let any = 1 + random.below(MAX_CHOICES);
    let many = random.within(33, MAX_CHOICES as i64) as usize;
    match size {
        Size::Small => 1 + random.below(6),
        Size::Wide => many,
        Size::Middle => random.pick(&[any, many]),
        Size::Full => random.pick(&[32, many, MAX_CHOICES]),
    }
}

/// Choices at minutes before `end`.
fn choices(random: &mut Random, count: usize, end: u16) -> Vec<Choice> {
    let mut all: Vec<(u16, u16)> = Vec::new();
    let one_tank = random.chance(20);
    while all.len() < count {
        let (any_tank, any_minute) = (1 + random.below(9_999) as u16, random.below(end as usize) as u16);
        let tank = if one_tank { 1 } else { random.pick(&[1, 2, 3, 9_998, 9_999, any_tank]) };
        let minute = random.pick(&[0, 1, end - 2, end - 1, any_minute, any_minute]);
        if !all.contains(&(tank, minute)) {
            all.push((tank, minute));
        }
    }
    all.sort();
    all.into_iter().map(|(tank, minute)| Choice { tank, minute }).collect()
}

/// Windows, or none.
fn windows(random: &mut Random, register: &Register) -> Vec<Window> {
    let wanted = match random.below(10) {
        0..=3 => return Vec::new(),
        4..=6 => 1 + random.below(6),
        7 => random.below(MAX_WINDOWS + 1),
        8 => MAX_WINDOWS - 1,
        _ => MAX_WINDOWS,
    };
    so_many_windows(random, register, wanted, 70)
}

/// So many windows, or as many more as the choices need: of that percentage of the tanks that have choices, each choice of theirs
/// inside one, and of tanks that have none.
fn so_many_windows(random: &mut Random, register: &Register, wanted: usize, percent: usize) -> Vec<Window> {
    let (choices, length) = (&register.choices, register.day_length);
    let mut tanks: Vec<u16> = choices.iter().map(|choice| choice.tank).collect();
    tanks.dedup();
    tanks.retain(|_| random.chance(percent));
    // "to", by tank and "from".
    let mut found: BTreeMap<(u16, u16), u16> = BTreeMap::new();
    for &Choice { tank, minute } in choices.iter().filter(|choice| tanks.contains(&choice.tank)) {
        let inside = found.iter().any(|(&(of, from), &to)| of == tank && (from..to).contains(&minute));
        if !inside || random.chance(50) {
            let before = random.below(minute as usize + 1) as u16;
            let from = random.pick(&[minute, minute, 0, before]);
            let to = found.entry((tank, from)).or_insert(0);
            *to = (*to).max(later(random, minute, length));
        }
    }
    while found.len() < wanted {
        let (any_tank, any_minute) = (1 + random.below(9_999) as u16, random.below(length as usize) as u16);
        let tank = if !tanks.is_empty() && random.chance(60) {
            random.pick(&tanks)
        } else {
            random.pick(&[1, 2, 3, 9_998, 9_999, any_tank])
        };
        // A tank of choices that has no windows stays without.
        if !tanks.contains(&tank) && choices.iter().any(|choice| choice.tank == tank) {
            continue;
        }
        // It touches a window before it, begins inside that one, or stands anywhere.
        let from = match found.range((tank, 0)..(tank, any_minute)).next_back() {
            Some((_, &to)) if to < length && random.chance(30) => to,
            Some((&(_, from), &to)) if from + 1 < to && random.chance(30) => from + 1,
            _ => {
                let shorter = random.pick(&[SHORT_DAY, USUAL_DAY]).min(length - 1);
                random.pick(&[0, 1, length - 2, length - 1, shorter, any_minute, any_minute])
            }
        };
        found.entry((tank, from)).or_insert(later(random, from, length));
    }
    found.into_iter().map(|((tank, from), to)| Window { tank, from, to }).collect()
}

/// A "to" after the minute: the least, the greatest, the end of a shorter day, or any.
fn later(random: &mut Random, minute: u16, length: u16) -> u16 {
    let any = random.within(minute as i64 + 1, length as i64) as u16;
    let shorter = random.pick(&[SHORT_DAY, USUAL_DAY]).clamp(minute + 1, length);
    random.pick(&[minute + 1, minute + 1, length, shorter, any])
}

/// Rows of n choices. In three of four cases the plan fits them all; else one or all have another total, which may be no plan's.
fn rows(random: &mut Random, n: usize, plan: u64) -> Vec<Row> {
    let count = match random.below(20) {
        0..=9 => return Vec::new(),
        10..=13 => 1,
        14 | 15 => 2,
        16 => 3 + random.below(MAX_ROWS - 4),
        17 => MAX_ROWS - 1,
        _ => MAX_ROWS,
    };
    let mut rows: Vec<Row> = (0..count).map(|_| row(random, n, plan)).collect();
    if random.chance(25) {
        let (only, any) = (random.below(count), random.within(-4_064, 4_064) as i16);
        for (k, row) in rows.iter_mut().enumerate() {
            if k == only || random.chance(20) {
                let (limit, total) = (MAX_ROW_TOTAL as i16, row.total);
                row.total =
                    random.pick(&[total + 1, total - 1, total + 2, -total, 0, 1, limit, -limit, any]).clamp(-limit, limit);
            }
        }
    }
    rows
}

/// A row that the plan fits: entries of one kind or of any, and the total that the plan makes of them.
fn row(random: &mut Random, n: usize, plan: u64) -> Row {
    let n = n.min(ROW_ENTRIES);
    let any = random.next() as i8;
    let kinds: [&[i8]; 10] = [
        // Exactly so many feedings; of some choices only; one kind against another.
        &[1],
        &[1],
        &[0, 1],
        &[0, 0, 0, 1],
        &[1, -1],
        // Sums that are even, or multiples of some other number, whatever is fed.
        &[2, -2, 0, 4],
        &[any, 0],
        &[127, -128, 126, -127],
        &[127],
        &[-128],
    ];
    let kind = random.pick(&kinds);
    let any_entries = random.chance(25);
    let mut row = Row { total: 0, entries: [0; ROW_ENTRIES] };
    for entry in &mut row.entries[..n] {
        *entry = if any_entries { random.next() as i8 } else { random.pick(kind) };
    }
    // The last choice that has an entry or the first alone, now and then.
    if random.chance(5) {
        row.entries = [0; ROW_ENTRIES];
        row.entries[random.pick(&[0, n - 1])] = random.pick(&[1, -1, 127, -128]);
    }
    // 32 entries of -128 or of 127 and more come to more than a total may be: the last ones are left out.
    for j in (0..n).rev() {
        row.total = row.sum_of(plan);
        if row.total.unsigned_abs() <= MAX_ROW_TOTAL {
            break;
        }
        row.entries[j] = 0;
    }
    row
}

/// Rows for a job that has none; its plan fits them, mostly.
fn add_rows(random: &mut Random, whole: &mut Whole) {
    let plan = plan_of(&whole.parts[3][0]).unwrap_or(0);
    let commands = &mut whole.parts[0];
    if commands.iter().all(|command| command[0] != 0x14) {
        let place = commands.iter().rposition(|command| command[0] == 0x11).map_or(1, |at| at + 1);
        commands.splice(place..place, rows(random, whole.choices, plan).iter().map(row_command));
    }
}

fn coefficient(random: &mut Random) -> i32 {
    let (small, any) = (random.within(1, 9) as i32, random.within(1, 1_000_000) as i32);
    random.pick(&[1, -1, 1_000_000, -1_000_000, small, -small, any, -any])
}

/// The coefficients of a register's terms: of any kind, or alike in some way that a search meets.
fn coefficients(random: &mut Random, masks: &[u64]) -> Vec<i32> {
    let manner = random.below(17);
    let one = coefficient(random);
    let of_mask = |mask: u64| match manner {
        // Few values: many plans cost the same, and sums come to the best cost exactly.
        0 | 1 => random.pick(&[1, -1]),
        2 => random.pick(&[one, -one]),
        3 => random.pick(&[1, -1, 2, -2, -3]),
        4 => one,
        // One sign.
        5 => coefficient(random).abs(),
        6 => -coefficient(random).abs(),
        // Of terms of one choice each, every plan is cheaper than those before it: a search leaves nothing.
        7 => -(1 << mask.ilog2().min(19)),
        8 => (mask.ilog2() as i32 + 1) * random.pick(&[1, -1]),
        // Few save anything: also of many choices a search leaves most branches.
        9..=11 if random.chance(92) => coefficient(random).abs(),
        9..=11 => -coefficient(random).abs(),
        _ => coefficient(random),
    };
    masks.iter().copied().map(of_mask).collect()
}

/// Makes terms known within ranges: in half of the registers none, else all, some, or one.
fn ranges(random: &mut Random, register: &mut Register) {
    let percent = match random.below(10) {
        0..=4 => return,
        5 => 100,
        6 => 0,
        _ => random.pick(&[10, 50, 80]),
    };
    // Terms of choices from 32 on, which come last, can't have one.
    let count = register.terms.iter().filter(|term| term.mask <= LOWER).count();
    let one = random.below(count.max(1));
    // The lows stay as they were, mostly, so that a search meets what `coefficients` made for it.
    let lows_stay = random.chance(60);
    for (t, term) in register.terms[..count].iter_mut().enumerate() {
        if t == one || random.chance(percent) {
            let (low, high) = if lows_stay { range_from(random, term.low) } else { range_about(random, term.low) };
            *term = Term { low, high, ranged: true, ..*term };
        }
    }
}

/// A range that begins with the coefficient: one number, two, up to 0, up to the limit, or up to any.
fn range_from(random: &mut Random, low: i32) -> (i32, i32) {
    let limit = MAX_COEFFICIENT as i32;
    let any = random.within(low as i64, limit as i64) as i32;
    (low, random.pick(&[low, low, (low + 1).min(limit), low.max(0), low.abs(), limit, any, any]))
}

/// A range that begins or ends with the coefficient or its negative, begins or ends at 0, or is 0 alone.
fn range_about(random: &mut Random, coefficient: i32) -> (i32, i32) {
    let limit = MAX_COEFFICIENT as i32;
    let size = coefficient.abs();
    let below = random.within(-limit as i64, coefficient as i64) as i32;
    random.pick(&[
        (coefficient, coefficient),
        ((coefficient - 1).max(-limit), coefficient),
        (below, coefficient),
        (-limit, coefficient),
        (-limit, limit),
        (-size, size),
        (0, size),
        (-size, 0),
        (0, 0),
    ])
}

/// Ranges in place of some coefficients of a job.
fn add_ranges(random: &mut Random, whole: &mut Whole) {
    let commands = &mut whole.parts[0];
    for at in places(commands, 0x12) {
        if random.chance(50) {
            with_range(random, &mut commands[at]);
        }
    }
}

/// Makes a `16` of a `12`, or of a `15` whose mask it has room for.
fn with_range(random: &mut Random, command: &mut Vec<u8>) {
    let (mask, low) = (mask_of(command), last_number(command));
    if mask <= LOWER {
        let limit = MAX_COEFFICIENT as i32;
        let (low, high) = if low.unsigned_abs() <= MAX_COEFFICIENT { range_from(random, low) } else { (low, limit) };
        *command = term_command(&Term { mask, low, high, ranged: true, position: 0 });
    }
}

/// `15` in place of some `12`, or of all, and at times `41` in place of `40`.
fn add_wide_forms(random: &mut Random, whole: &mut Whole) {
    let percent = random.pick(&[0, 0, 20, 60, 100]);
    let [register, .., plan] = &mut whole.parts;
    for at in places(register, 0x12) {
        if random.chance(percent) {
            register[at] = wide_term(mask_of(&register[at]), last_number(&register[at]));
        }
    }
    if places(plan, 0x40) == [0] && random.chance(30) {
        plan[0] = wide_plan(plan_of(&plan[0]).unwrap());
    }
}

/// A factor for about a third of the schemes that say none.
pub fn add_factor(random: &mut Random, commands: &mut Vec<Vec<u8>>) {
    if places(commands, 0x23).is_empty() && random.chance(33) {
        let any = 1 + random.below(MAX_FACTOR as usize) as u16;
        commands.insert(0, factor_command(random.pick(&[1, 2, MAX_FACTOR, any])));
    }
}

fn base(random: &mut Random) -> i32 {
    let any = random.within(-1_000_000, 1_000_000) as i32;
    random.pick(&[0, 10, -10, 1_000_000_000, -1_000_000_000, any])
}

/// A register of masks, each once, in any order; on a day of the usual length, without windows, rows or ranges.
fn register_of(random: &mut Random, choice_count: usize, mut masks: Vec<u64>) -> Register {
    masks.sort();
    masks.dedup();
    masks.truncate(MAX_TERMS);
    let coefficients = coefficients(random, &masks);
    let term = |(mask, coefficient)| Term::known(mask, coefficient);
    Register {
        base: base(random),
        day_length: USUAL_DAY,
        windows: Vec::new(),
        choices: choices(random, choice_count, USUAL_DAY),
        rows: Vec::new(),
        terms: masks.into_iter().zip(coefficients).map(term).collect(),
    }
}

/// A register, and the scheme that the builder makes of it, or of so many of its terms that the builder can.
fn built(random: &mut Random, size: Size) -> (Register, Scheme) {
    let n = choice_count(random, size);
    let all = all_of(n);
    let count = random.below(if matches!(size, Size::Small | Size::Wide) { 8 } else { 60 });
    // Of many choices few products are left, and a term of d choices may need d - 2.
    let thin = if n > 32 { 1 + random.below(5) } else { random.pick(&[0, 2]) };
    let parts = if n > 32 { [all, all, LOWER, all & !LOWER] } else { [all; 4] };
    let mut masks: Vec<u64> = (0..count)
        .map(|_| (0..thin).fold(random.pick(&parts) & random.next(), |mask, _| mask & random.next()))
        .filter(|&mask| mask != 0)
        .collect();
    masks.extend(regular_masks(random, n));
    loop {
        let register = register_of(random, n, masks.clone());
        match builder::build(&register) {
            Ok(scheme) => return (register, scheme),
            // Now and then a register that the builder refuses is kept, with a scheme of no splits.
            Err(_) if random.chance(15) => return (register, Scheme::of_choices(n)),
            Err(_) => {
                masks.pop();
            }
        }
    }
}

/// Masks that make a search come to what it rarely comes to by chance; mostly none.
fn regular_masks(random: &mut Random, n: usize) -> Vec<u64> {
    let all = all_of(n);
    match random.below(if n > 32 { 14 } else { 10 }) {
        // Each choice by itself; with one term of all choices; with each pair of neighbours.
        0 | 1 => (0..n).map(|i| 1 << i).collect(),
        2 => (0..n).map(|i| 1 << i).chain([all]).collect(),
        3 => (0..n).flat_map(|i| [1 << i, (3 << i) & all]).collect(),
        4 => vec![all],
        // The choices up to one, or from one on.
        5 => (0..n).map(|i| all >> i).collect(),
        6 => (0..n).map(|i| all << i & all).collect(),
        // Of more than 32 one term of as many as the builder has products for, or of one more; or each by itself once more.
        7 | 8 if n > 32 => {
            let degree = (most_products(n) + 2 + random.below(2)).min(n);
            vec![all_of(degree) << random.below(n - degree + 1)]
        }
        9..=11 if n > 32 => (0..n).map(|i| 1 << i).collect(),
        _ => Vec::new(),
    }
}

/// Products whose sets are new, then terms whose masks are unions of two variables' sets.
pub fn products_first(random: &mut Random, size: Size) -> (Register, Scheme) {
    let n = choice_count(random, size);
    products_of(random, size, n)
}

/// The same of so many choices.
pub fn products_of(random: &mut Random, size: Size, n: usize) -> (Register, Scheme) {
    let mut scheme = Scheme::of_choices(n);
    let most = most_products(n);
    let wanted = match size {
        Size::Small | Size::Wide => random.below(5),
        Size::Middle => random.below(most + 1),
        Size::Full => most,
    };
    add_products(random, &mut scheme, wanted);
    let mut splits: Vec<(u64, usize, usize)> = Vec::new();
    if size == Size::Wide && random.chance(60) {
        splits.extend((0..n).map(|i| (1 << i, i, i)));
    }
    let wanted = match size {
        Size::Small | Size::Wide => splits.len() + random.below(8),
        Size::Middle => random.below(100),
        Size::Full => MAX_TERMS,
    };
    for _ in 0..4 * wanted {
        if splits.len() == wanted {
            break;
        }
        let r = random.below(scheme.variables());
        let l = if random.chance(30) { r } else { random.below(r + 1) };
        let mask = scheme.union(l, r);
        if splits.iter().all(|split| split.0 != mask) {
            splits.push((mask, l, r));
        }
    }
    splits.sort();
    let register = register_of(random, n, splits.iter().map(|split| split.0).collect());
    scheme.splits = splits.into_iter().map(|(_, l, r)| (l, r)).collect();
    (register, scheme)
}

/// Adds products with new sets, up to so many in all, if they are found.
fn add_products(random: &mut Random, scheme: &mut Scheme, wanted: usize) {
    for _ in 0..20 * wanted {
        if scheme.products.len() >= wanted || scheme.variables() < 2 {
            break;
        }
        let r = 1 + random.below(scheme.variables() - 1);
        let l = random.below(r);
        if !scheme.sets.contains(&scheme.union(l, r)) {
            scheme.add_product(l, r);
        }
    }
}

// Certificates, beside a plan.

fn any_certificate(random: &mut Random, size: Size, register: &Register, scheme: &Scheme, plan: u64) -> Certificate {
    if scheme.splits.len() < register.terms.len() {
        return Certificate { scale: 1, target: 0, multipliers: Vec::new(), squares: Vec::new(), end: 0 };
    }
    match random.below(10) {
        0 => plain::certificate(register, scheme, plan),
        1 => {
            let mut certificate = plain::certificate(register, scheme, plan);
            certificate.target += random.within(-2, 2);
            certificate
        }
        2 => extreme(random, size, register, scheme),
        3 => random_certificate(random, size, register, scheme, false),
        _ => {
            let mut certificate = random_certificate(random, size, register, scheme, true);
            repair(register, scheme, plan, &mut certificate);
            match random.below(4) {
                0 => certificate.target += random.within(1, 3),
                1 => certificate.target = (certificate.target - random.within(0, 1_000_000_000)).max(-certificate::MAX_TARGET),
                _ => {}
            }
            certificate
        }
    }
}

/// Multipliers and squares of all kinds, with some room left for `repair`.
pub fn random_certificate(random: &mut Random, size: Size, register: &Register, scheme: &Scheme, room: bool) -> Certificate {
    let n = scheme.variables();
    let most = certificate::MAX_MULTIPLIERS - if room { n } else { 0 };
    let (multipliers, squares) = match size {
        Size::Small | Size::Wide => (random.below(8), random.below(4)),
        Size::Middle => (random.below(100), random.below(12)),
        Size::Full => (most, certificate::MAX_SQUARES),
    };
    let reach = random.pick(&[1, 10, 1_000, 1_000_000, 1_000_000_000]);
    let any = 1 + random.below(1_000_000) as u32;
    let scale = random.pick(&[1, 1, 2, 3, 7, 1_000_000, any]);
    Certificate {
        scale,
        target: random.within(-1_000, 1_000),
        multipliers: (0..multipliers).map(|_| multiplier(random, register, scheme, reach)).collect(),
        squares: (0..squares).map(|_| square(random, n, reach)).collect(),
        end: 0,
    }
}

/// A multiplier of any kind, that is right.
fn multiplier(random: &mut Random, register: &Register, scheme: &Scheme, reach: i64) -> Multiplier {
    let n = scheme.variables();
    if !register.rows.is_empty() && random.chance(20) {
        let reach = reach.min(certificate::MAX_ROW_MULTIPLIER);
        let names = [random.below(register.rows.len()), random.below(n), 0, 0];
        return Multiplier { kind: 0x3B, names, m: random.within(-reach, reach) };
    }
    let sets = &scheme.sets;
    let mut kind = random.within(0x31, 0x39) as u8;
    let mut names = [random.below(n), 0, 0, 0];
    match kind {
        0x32 => match (0..100)
            .map(|_| (random.below(n), random.below(n)))
            .find(|&(i, j)| sets[j] & !sets[i] == 0 && sets[j] != sets[i])
        {
            Some((i, j)) => names = [i, j, 0, 0],
            None => kind = 0x31,
        },
        0x33 if scheme.products.is_empty() => kind = 0x31,
        0x33 => {
            let i = scheme.choices + random.below(scheme.products.len());
            let (mut j, mut k) = scheme.operands(i);
            if random.chance(30) {
                (j, k) = (j, i);
            }
            for _ in 0..10 {
                let (a, b) = (random.below(n), random.below(n));
                if a < b && scheme.union(a, b) == sets[i] {
                    (j, k) = (a, b);
                }
            }
            names = [i, j, k, 0];
        }
        0x34 if n < 2 => kind = 0x31,
        0x34 => {
            let j = 1 + random.below(n - 1);
            let i = random.below(j);
            let (mut k, mut l) = (i, j);
            for _ in 0..30 {
                let (a, b) = (random.below(n), random.below(n));
                if a < b && scheme.union(a, b) == scheme.union(i, j) {
                    (k, l) = (a, b);
                }
            }
            names = [i, j, k, l];
        }
        0x35..=0x37 if scheme.products.is_empty() => kind = 0x38,
        0x35..=0x37 => names[0] = scheme.choices + random.below(scheme.products.len()),
        _ => {}
    }
    let m = if kind <= 0x34 { random.within(-reach, reach) } else { random.within(0, reach) };
    Multiplier { kind, names, m }
}

fn square(random: &mut Random, variables: usize, reach: i64) -> Square {
    let mut entries = [0; certificate::ENTRIES];
    let most = reach.min(10_000);
    let sparse = random.chance(50);
    for entry in &mut entries[..variables + 1] {
        if !sparse || random.chance(10) {
            *entry = random.within(-most, most) as i16;
        }
    }
    Square { weight: random.within(1, reach.min(1_000_000)) as u32, entries }
}

/// Adds `31` commands that make each row but row 0 dominant, then takes the largest target that row 0 carries.
pub fn repair(register: &Register, scheme: &Scheme, plan: u64, certificate: &mut Certificate) {
    let missing = |table: &reference::table::Table, i: usize| -> i64 {
        (0..table.side).filter(|&j| j != i).map(|j| table.at(i, j).abs()).sum::<i64>() - table.at(i, i)
    };
    let table = certificate::residual(register, scheme, plan, certificate);
    for i in 0..scheme.variables() {
        let m = missing(&table, i + 1);
        if m > 0 {
            // The diagonal rises by twice m, and the sum of the others by m at most.
            certificate.multipliers.push(Multiplier { kind: 0x31, names: [i, 0, 0, 0], m: m.min(certificate::MAX_MULTIPLIER) });
        }
    }
    let table = certificate::residual(register, scheme, plan, certificate);
    let lower = missing(&table, 0);
    let target = certificate.target - (lower.div_euclid(2) + lower.rem_euclid(2));
    certificate.target = target.clamp(-certificate::MAX_TARGET, certificate::MAX_TARGET);
}

/// Every number at its limit.
fn extreme(random: &mut Random, size: Size, register: &Register, scheme: &Scheme) -> Certificate {
    let mut certificate = random_certificate(random, size, register, scheme, false);
    let one_kind = random.chance(50).then(|| certificate.multipliers.first().cloned()).flatten();
    for multiplier in &mut certificate.multipliers {
        if let Some(first) = &one_kind {
            *multiplier = first.clone();
        }
        let negative = certificate::signed(multiplier.kind) && one_kind.is_none() && random.chance(50);
        let m = certificate::largest(multiplier.kind);
        multiplier.m = if negative { -m } else { m };
    }
    let alike = random.chance(50);
    for square in &mut certificate.squares {
        square.weight = certificate::MAX_WEIGHT;
        for entry in &mut square.entries[..scheme.variables() + 1] {
            *entry = if alike || random.chance(50) { 10_000 } else { -10_000 };
        }
    }
    certificate.scale = certificate::MAX_SCALE;
    certificate.target = random.pick(&[certificate::MAX_TARGET, -certificate::MAX_TARGET]);
    certificate
}

// Commands.

fn command(byte: u8, operands: &[&[u8]]) -> Vec<u8> {
    let mut bytes = vec![byte];
    for operand in operands {
        bytes.extend_from_slice(operand);
    }
    bytes
}

/// The commands of a register; the usual length of the day is not said, and a `15` stands only where a `12` has no room.
pub fn register_commands(register: &Register) -> Vec<Vec<u8>> {
    let mut commands = vec![command(0x10, &[&register.base.to_le_bytes()])];
    if register.day_length != USUAL_DAY {
        commands.push(day_command(register.day_length));
    }
    for window in &register.windows {
        commands.push(window_command(window));
    }
    for choice in &register.choices {
        commands.push(choice_command(choice));
    }
    commands.extend(register.rows.iter().map(row_command));
    commands.extend(register.terms.iter().map(term_command));
    commands.push(vec![0x1F]);
    commands
}

fn day_command(length: u16) -> Vec<u8> {
    command(0x18, &[&length.to_le_bytes()])
}

fn choice_command(choice: &Choice) -> Vec<u8> {
    command(0x11, &[&choice.tank.to_le_bytes(), &choice.minute.to_le_bytes()])
}

fn window_command(window: &Window) -> Vec<u8> {
    command(0x13, &[&window.tank.to_le_bytes(), &window.from.to_le_bytes(), &window.to.to_le_bytes()])
}

fn row_command(row: &Row) -> Vec<u8> {
    command(0x14, &[&row.total.to_le_bytes(), &row.entries.map(|entry| entry as u8)])
}

fn term_command(term: &Term) -> Vec<u8> {
    let (low, high) = (term.low.to_le_bytes(), term.high.to_le_bytes());
    match u32::try_from(term.mask) {
        Ok(mask) if term.ranged => command(0x16, &[&mask.to_le_bytes(), &low, &high]),
        Ok(mask) => command(0x12, &[&mask.to_le_bytes(), &low]),
        Err(_) => wide_term(term.mask, term.low),
    }
}

fn wide_term(mask: u64, coefficient: i32) -> Vec<u8> {
    command(0x15, &[&mask.to_le_bytes(), &coefficient.to_le_bytes()])
}

/// The mask of a whole term.
fn mask_of(term: &[u8]) -> u64 {
    let mut mask = [0; 8];
    let width = widths(term[0])[0];
    mask[..width].copy_from_slice(&term[1..1 + width]);
    u64::from_le_bytes(mask)
}

/// The coefficient of a whole term, the high one of a range.
fn last_number(term: &[u8]) -> i32 {
    i32::from_le_bytes(*term.last_chunk().unwrap())
}

fn factor_command(factor: u16) -> Vec<u8> {
    command(0x23, &[&factor.to_le_bytes()])
}

/// The commands of a scheme; the factor 1 is not said.
pub fn scheme_commands(scheme: &Scheme) -> Vec<Vec<u8>> {
    let mut commands: Vec<Vec<u8>> = Vec::new();
    if scheme.factor != 1 {
        commands.push(factor_command(scheme.factor));
    }
    commands.extend(scheme.products.iter().map(|&(l, r)| vec![0x21, l as u8, r as u8]));
    commands.extend(scheme.splits.iter().map(|&(l, r)| vec![0x22, l as u8, r as u8]));
    commands.push(vec![0x2F]);
    commands
}

fn in_order(certificate: &Certificate) -> Vec<Vec<u8>> {
    let mut commands = vec![command(0x30, &[&certificate.scale.to_le_bytes(), &certificate.target.to_le_bytes()])];
    for multiplier in &certificate.multipliers {
        let names: Vec<u8> = multiplier.names[..certificate::names_of(multiplier.kind)].iter().map(|&v| v as u8).collect();
        commands.push(command(multiplier.kind, &[&names, &multiplier.m.to_le_bytes()]));
    }
    for square in &certificate.squares {
        let entries: Vec<u8> = square.entries.iter().flat_map(|entry| entry.to_le_bytes()).collect();
        commands.push(command(0x3A, &[&square.weight.to_le_bytes(), &entries]));
    }
    commands.push(vec![0x3F]);
    commands
}

/// The commands of a certificate, those between the first and the last in any order.
pub fn certificate_commands(random: &mut Random, certificate: &Certificate) -> Vec<Vec<u8>> {
    let mut commands = in_order(certificate);
    let last = commands.len() - 1;
    if random.chance(70) {
        random.shuffle(&mut commands[1..last]);
    }
    commands
}

/// A plan by the shorter command, if it has room.
fn plan_command(plan: u64) -> Vec<u8> {
    match u32::try_from(plan) {
        Ok(plan) => command(0x40, &[&plan.to_le_bytes()]),
        Err(_) => wide_plan(plan),
    }
}

fn wide_plan(plan: u64) -> Vec<u8> {
    command(0x41, &[&plan.to_le_bytes()])
}

/// The plan at the front of the bytes, if it is not cut off.
fn plan_of(bytes: &[u8]) -> Option<u64> {
    match bytes.split_first()? {
        (0x40, rest) => Some(u32::from_le_bytes(*rest.first_chunk()?) as u64),
        (0x41, rest) => Some(u64::from_le_bytes(*rest.first_chunk()?)),
        _ => None,
    }
}

/// The widths of a command's operands.
fn widths(byte: u8) -> Vec<usize> {
    match byte {
        0x10 | 0x40 => vec![4],
        0x11 => vec![2, 2],
        0x12 => vec![4, 4],
        0x13 => vec![2, 2, 2],
        0x14 => [vec![2], vec![1; ROW_ENTRIES]].concat(),
        0x15 => vec![8, 4],
        0x16 => vec![4, 4, 4],
        0x18 | 0x23 => vec![2],
        0x21 | 0x22 => vec![1, 1],
        0x30 => vec![4, 8],
        0x31 | 0x35..=0x39 => vec![1, 8],
        0x32 | 0x3B => vec![1, 1, 8],
        0x33 => vec![1, 1, 1, 8],
        0x34 => vec![1, 1, 1, 1, 8],
        0x3A => [vec![4], vec![2; 65]].concat(),
        0x41 => vec![8],
        _ => vec![],
    }
}

const COMMANDS: [u8; 29] = [
    0x10, 0x11, 0x12, 0x13, 0x14, 0x15, 0x16, 0x18, 0x1F, 0x21, 0x22, 0x23, 0x2F, 0x30, 0x31, 0x32, 0x33, 0x34, 0x35, 0x36, 0x37,
    0x38, 0x39, 0x3A, 0x3B, 0x3F, 0x40, 0x41, 0x00,
];

// Damage.

fn damaged(random: &mut Random, mut whole: Whole) -> Input {
    if random.chance(65) {
        let part = random.pick(&[0, 0, 1, 1, 2, 2, 2, 3]);
        for _ in 0..1 + random.below(3) {
            damage_commands(random, &mut whole, part);
        }
    }
    let mut input = Input::default();
    for (bytes, commands) in input.parts.iter_mut().zip(&whole.parts) {
        *bytes = commands.concat();
    }
    // Where there is a range, a job has its plan before its certificate; now and then the order is the other one.
    let plan_first = whole.parts[0].iter().any(|command| command[0] == 0x16) != random.chance(5);
    if random.chance(20) {
        let part = random.below(4);
        damage_bytes(random, &mut input.parts[part]);
    }
    input.job = in_job_order(&input.parts, plan_first).concat();
    if random.chance(15) {
        damage_bytes(random, &mut input.job);
    }
    // A job that stops where a part would begin.
    if random.chance(2) {
        input.job = in_job_order(&input.parts, plan_first)[..random.below(4)].concat();
    }
    input.beside = plan_beside(random, &input.parts, whole.choices);
    input
}

fn in_job_order(parts: &[Vec<u8>; 4], plan_first: bool) -> [&[u8]; 4] {
    let [register, scheme, certificate, plan] = parts.each_ref().map(|part| &part[..]);
    if plan_first {
        [register, scheme, plan, certificate]
    } else {
        [register, scheme, certificate, plan]
    }
}

/// What the check and the plain certificate are lent as part 4: mostly the plan, else another, none, one with bytes behind it, one
/// that is damaged, or the certificate.
fn plan_beside(random: &mut Random, parts: &[Vec<u8>; 4], n: usize) -> Vec<u8> {
    let [_, _, certificate, plan] = parts;
    let mut plan = plan.clone();
    match random.below(20) {
        0 => plan.clear(),
        1 | 2 => damage_plan(random, &mut plan, n),
        3 if random.chance(50) => plan.extend(certificate),
        3 => plan.push(random.next() as u8),
        4 => damage_bytes(random, &mut plan),
        5 if random.chance(30) => plan = certificate.clone(),
        _ => {}
    }
    plan
}

/// Changes the commands of a part in one way.
fn damage_commands(random: &mut Random, whole: &mut Whole, part: usize) {
    let (n, all) = (whole.choices, whole.variables);
    let rows = places(&whole.parts[0], 0x14).len();
    let products = products_in(&whole.parts[1], n);
    let commands = &mut whole.parts[part];
    if commands.is_empty() {
        return;
    }
    let percent = if rows > 0 { 35 } else { 4 };
    let [ranged, wide] = [0x16, 0x15].map(|byte| !places(commands, byte).is_empty());
    match part {
        0 if random.chance(5) => return more_choices(random, commands),
        0 if random.chance(percent) => return damage_rows(random, commands, n),
        0 if random.chance(if ranged { 40 } else { 5 }) => return damage_ranges(random, commands, n),
        0 if random.chance(if wide { 40 } else { 5 }) => return damage_wide_terms(random, commands, n),
        1 if random.chance(8) => return more_products(random, commands, products),
        1 if random.chance(if places(commands, 0x23).is_empty() { 8 } else { 35 }) => return damage_factor(random, commands),
        0 | 2 | 3 if random.chance(1) => return misplace_factor(random, commands),
        2 if n > 32 && random.chance(8) => return half_alike(random, commands, &products),
        2 if random.chance(percent) => return damage_row_forms(random, commands, rows, all),
        3 if random.chance(40) => return damage_plan(random, &mut commands[0], n),
        _ => {}
    }
    if commands.iter().any(|command| command.first() == Some(&0x13)) && random.chance(40) {
        return damage_windows(random, commands);
    }
    if part == 0 && random.chance(20) {
        return damage_day(random, commands);
    }
    let at = random.below(commands.len());
    match random.below(14) {
        // One operand, or two of the same command, set to a number at or past a limit.
        0..=4 => {
            notable_operand(random, &mut commands[at], n, all);
            if random.chance(30) {
                notable_operand(random, &mut commands[at], n, all);
            }
        }
        5 => {
            let again = commands[at].clone();
            commands.insert(at, again);
        }
        6 => {
            commands.remove(at);
        }
        7 => {
            let other = random.below(commands.len());
            commands.swap(at, other);
        }
        8 => {
            let byte = random.pick(&COMMANDS);
            let mut new = vec![byte];
            for width in widths(byte) {
                new.extend((0..width).map(|_| if random.chance(60) { random.below(all + 1) as u8 } else { 0 }));
            }
            commands.insert(at, new);
        }
        // The first two operand bytes exchanged, or the second pair of `34`.
        9 if commands[at].len() > 4 && commands[at][0] == 0x34 && random.chance(50) => commands[at].swap(3, 4),
        9 if commands[at].len() > 3 && commands[at][0] == 0x33 => commands[at].swap(2, 3),
        9 if commands[at].len() > 2 => commands[at].swap(1, 2),
        // A name changed to another variable's, or to the command's first; of a square, an entry about the last that is free.
        10 if commands[at].len() > 2 => {
            let names = widths(commands[at][0]).into_iter().take_while(|&width| width == 1).count();
            let name = 1 + random.below(names.max(1));
            if names > 0 && name < commands[at].len() {
                commands[at][name] = if random.chance(30) { commands[at][1] } else { random.below(all) as u8 };
            }
            let entry = 5 + 2 * (all + random.below(3));
            if commands[at][0] == 0x3A && entry < commands[at].len() {
                commands[at][entry] = random.next() as u8;
            }
        }
        // Copies of a command before the last, to come to a limit or past it.
        11 => {
            let again = commands[at].clone();
            let copies = random.pick(&[1, 2, 33, 64, 65, 300]);
            let end = commands.len() - 1;
            let at = if random.chance(50) { at } else { end };
            for _ in 0..copies {
                commands.insert(at, again.clone());
            }
        }
        // One more command of a kind, after the last of it: past the limit where the part is full.
        12 | 13 => {
            let mut kinds: Vec<u8> = commands.iter().map(|command| command[0]).collect();
            kinds.sort();
            kinds.dedup();
            let kind = random.pick(&kinds);
            let last = commands.iter().rposition(|command| command[0] == kind).unwrap();
            let mut more = commands[last].clone();
            let length = length_of(commands);
            match more[0] {
                0x11 if more.len() > 4 => more[3..5].copy_from_slice(&(length - 1).to_le_bytes()),
                0x12 | 0x16 if more.len() > 4 => more[1..5].copy_from_slice(&(all_of(n) as u32).to_le_bytes()),
                0x15 if more.len() > 8 => more[1..9].copy_from_slice(&all_of(n).to_le_bytes()),
                0x13 => more = window_command(&Window { tank: 9_999, from: length - 1, to: length }),
                0x21 if more.len() > 2 => more[1..3].copy_from_slice(&[random.below(all) as u8, all as u8 - 1]),
                _ => {}
            }
            if random.chance(60) {
                notable_operand(random, &mut more, n, all);
            }
            commands.insert(last + 1, more);
        }
        _ => commands[at].push(random.next() as u8),
    }
}

/// Changes a window, or a choice, in one way that windows bear on.
fn damage_windows(random: &mut Random, commands: &mut Vec<Vec<u8>>) {
    let (windows, choices) = (places(commands, 0x13), places(commands, 0x11));
    if windows.is_empty() || choices.is_empty() {
        return;
    }
    let same_tank = |&(window, choice): &(usize, usize)| operand(&commands[window], 0) == operand(&commands[choice], 0);
    let pairs: Vec<_> = windows.iter().flat_map(|&w| choices.iter().map(move |&c| (w, c))).filter(same_tank).collect();
    let (at, choice) =
        if pairs.is_empty() || random.chance(30) { (random.pick(&windows), random.pick(&choices)) } else { random.pick(&pairs) };
    let [tank, from, to] = [0, 1, 2].map(|i| operand(&commands[at], i));
    let [fed, minute] = [0, 1].map(|i| operand(&commands[choice], i));
    let length = length_of(commands);
    let edge = random.pick(&[from.wrapping_sub(1), from, to.wrapping_sub(1), to]);
    match random.below(15) {
        // The choice at an end of the window, inside or just outside; or one more choice there, rising or not.
        0 | 1 => set_operand(&mut commands[choice], 1, edge),
        2 => {
            let place = random.pick(&[choice, choices[choices.len() - 1]]) + 1;
            commands.insert(place, choice_command(&Choice { tank, minute: edge }));
        }
        // "from" or "to" at the choice, or just after it.
        3 => set_operand(&mut commands[at], 1 + random.below(2), minute.wrapping_add(random.below(2) as u16)),
        // Windows that contain the choice end before it, or are left out.
        4..=6 => {
            for &at in windows.iter().rev() {
                let [tank, from, to] = [0, 1, 2].map(|i| operand(&commands[at], i));
                if tank == fed && from < minute && minute < to {
                    set_operand(&mut commands[at], 2, minute);
                } else if tank == fed && from == minute {
                    commands.remove(at);
                }
            }
        }
        // One more window of the choice's tank, in its place: it ends before the choice, begins after it, or contains it.
        7 => {
            let next = minute.wrapping_add(1);
            let (from, to) = random.pick(&[(0, minute), (next, length), (minute, next)]);
            let after = windows.iter().find(|&&at| [0, 1].map(|i| operand(&commands[at], i)) > [fed, from]);
            let place = after.map_or(windows[windows.len() - 1] + 1, |&at| at);
            commands.insert(place, window_command(&Window { tank: fed, from, to }));
        }
        // "from" not below "to".
        8 => {
            let (from, to) = random.pick(&[(from, from), (to, to), (to, from), (from, from.wrapping_sub(1))]);
            set_operand(&mut commands[at], 1, from);
            set_operand(&mut commands[at], 2, to);
        }
        // The same tank and "from" again.
        9 => {
            let to = random.pick(&[to, to.wrapping_add(1), length, from]);
            commands.insert(at + random.below(2), window_command(&Window { tank, from, to }));
        }
        // Two windows exchanged, or one put anywhere.
        10 if random.chance(50) => commands.swap(at, random.pick(&windows)),
        10 => {
            let window = commands.remove(at);
            commands.insert(random.below(commands.len() + 1), window);
        }
        // One number out of range, or two.
        11 => {
            for _ in 0..1 + random.below(2) {
                let (i, value) = random.pick(&[(0, 0), (0, 10_000), (1, length), (2, 0), (2, length + 1)]);
                set_operand(&mut commands[at], i, value);
            }
        }
        // Windows of the greatest tank up to the limit or past it, the last of them perhaps wrong in another way too.
        _ => {
            let count = (MAX_WINDOWS + random.below(2)).saturating_sub(windows.len()) as u16;
            let froms = length - count..length;
            let mut more: Vec<_> = froms.map(|from| window_command(&Window { tank: 9_999, from, to: length })).collect();
            if let Some(last) = more.last_mut().filter(|_| random.chance(50)) {
                set_operand(last, random.below(3), random.pick(&[0, 1, length - 1, 10_000]));
            }
            let end = windows[windows.len() - 1] + 1;
            commands.splice(end..end, more);
        }
    }
}

/// Changes the length of the day, the place of its command, what stands after it, or a minute that it bears on, in one way.
fn damage_day(random: &mut Random, commands: &mut Vec<Vec<u8>>) {
    let length = length_of(commands);
    let (other, any) = (random.pick(&DAY_LENGTHS), random.next() as u16);
    let near = random.pick(&[other - 1, other + 1]);
    let wrong = random.pick(&[0, near, near, near, other ^ 0x100, other.swap_bytes(), u16::MAX, any]);
    let day = day_command(random.pick(&[length, other, wrong]));
    // Where `18` stands, or would.
    let place = commands.iter().position(|command| command[0] == 0x18).map_or(1..1, |at| at..at + 1);
    let kind = random.pick(&[0x10, 0x11, 0x12, 0x13, 0x15, 0x1F]);
    match random.below(13) {
        // Of any length, whatever the minutes are; left out; twice.
        0..=2 => drop(commands.splice(place, [day])),
        3 => commands.retain(|command| command[0] != 0x18),
        4 => drop(commands.splice(place, [day_command(length), day])),
        // Elsewhere, once more or alone: first, after the last command of a kind, or anywhere. At times it is cut off there.
        5..=7 => {
            if random.chance(50) {
                commands.retain(|command| command[0] != 0x18);
            }
            let anywhere = random.below(commands.len() + 1);
            let after = commands.iter().rposition(|command| command[0] == kind).map_or(anywhere, |at| at + 1);
            let at = random.pick(&[0, anywhere, after, after]);
            commands.insert(at, day);
            if random.chance(15) {
                commands.truncate(at + 1);
                commands[at].truncate(1 + random.below(2));
            }
        }
        // Cut off in its place: the register ends there, or goes on.
        8 => {
            let end = if random.chance(70) { commands.len() } else { place.end };
            commands.splice(place.start..end, [day[..1 + random.below(2)].to_vec()]);
        }
        // A command of the register stands directly after it once more.
        9 => {
            if let Some(command) = commands.iter().rfind(|command| command[0] == kind).cloned() {
                commands.splice(place, [day_command(length), command]);
            }
        }
        // A minute, a "from" or a "to" at the end of this day or of another.
        _ => {
            let (choices, windows) = (places(commands, 0x11), places(commands, 0x13));
            let (of, i) = if windows.is_empty() || random.chance(50) { (choices, 1) } else { (windows, 1 + random.below(2)) };
            if !of.is_empty() {
                let value = random.pick(&[length, length, other]) + random.below(3) as u16 - 1;
                set_operand(&mut commands[random.pick(&of)], i, value);
            }
        }
    }
}

/// Choices of tanks without windows up to the limit or past it, the last of all perhaps wrong in another way too, or cut off.
fn more_choices(random: &mut Random, commands: &mut Vec<Vec<u8>>) {
    let (choices, length) = (places(commands, 0x11), length_of(commands));
    let with_windows: Vec<u16> = places(commands, 0x13).iter().map(|&at| operand(&commands[at], 0)).collect();
    let mut all: BTreeSet<_> = choices.iter().map(|&at| [0, 1].map(|i| operand(&commands[at], i))).collect();
    let wanted = MAX_CHOICES + random.below(2);
    while all.len() < wanted {
        let (tank, minute) = (1 + random.below(9_999) as u16, random.below(length as usize) as u16);
        if !with_windows.contains(&tank) {
            all.insert([tank, minute]);
        }
    }
    let mut all: Vec<_> = all.into_iter().map(|[tank, minute]| choice_command(&Choice { tank, minute })).collect();
    commands.retain(|command| command.first() != Some(&0x11));
    let place = choices.first().map_or(1, |&at| at).min(commands.len());
    if let Some(last) = all.last_mut().filter(|_| random.chance(50)) {
        let (i, value) = random.pick(&[(0, 0), (0, 10_000), (0, 1), (1, length), (1, 0)]);
        set_operand(last, i, value);
        if random.chance(30) {
            last.truncate(1 + random.below(4));
            commands.truncate(place);
        }
    }
    commands.splice(place..place, all);
}

/// The products that whole commands of a scheme of n choices say, those that are right.
fn products_in(commands: &[Vec<u8>], n: usize) -> Scheme {
    let mut scheme = Scheme::of_choices(n);
    for at in places(commands, 0x21) {
        let (l, r) = (commands[at][1] as usize, commands[at][2] as usize);
        if l < r && r < scheme.variables() {
            scheme.add_product(l, r);
        }
    }
    scheme
}

/// Products with new sets up to as many as there may be or past it, the last of them perhaps wrong in another way too, or cut off.
fn more_products(random: &mut Random, commands: &mut Vec<Vec<u8>>, mut scheme: Scheme) {
    let count = scheme.products.len();
    let wanted = most_products(scheme.choices) + random.below(2);
    add_products(random, &mut scheme, wanted);
    let mut more: Vec<_> = scheme.products[count..].iter().map(|&(l, r)| vec![0x21, l as u8, r as u8]).collect();
    let front = commands.first().is_some_and(|command| command.first() == Some(&0x23)) as usize;
    let end = places(commands, 0x21).last().map_or(front, |at| at + 1);
    if let Some(last) = more.last_mut().filter(|_| random.chance(50)) {
        last[1 + random.below(2)] = random.pick(&[scheme.variables() as u8 - 1, 63, 64, 0xFF, last[1], last[2]]);
        if random.chance(20) {
            last.truncate(1 + random.below(2));
            commands.truncate(end);
        }
    }
    commands.splice(end..end, more);
}

/// Changes the factor of a scheme, its place, or what stands directly after it, in one way.
fn damage_factor(random: &mut Random, commands: &mut Vec<Vec<u8>>) {
    let (right, any) = (1 + random.below(MAX_FACTOR as usize) as u16, random.next() as u16);
    let wrong = random.pick(&[0, 0, MAX_FACTOR + 1, MAX_FACTOR + 1, u16::MAX, MAX_FACTOR.swap_bytes(), right | 0x8000, any]);
    let factor = factor_command(random.pick(&[1, 2, right, MAX_FACTOR, wrong, wrong]));
    // Where `23` stands, or would.
    let place = commands.iter().position(|command| command[0] == 0x23).map_or(0..0, |at| at..at + 1);
    let kind = random.pick(&[0x21, 0x22, 0x23, 0x2F]);
    match random.below(12) {
        // Any factor, or a wrong one; left out; once more, before it or after it.
        0 => drop(commands.splice(place, [factor])),
        1 | 2 => drop(commands.splice(place, [factor_command(wrong)])),
        3 => commands.retain(|command| command[0] != 0x23),
        4 | 5 if place.is_empty() => drop(commands.splice(place, [factor_command(right), factor])),
        4 | 5 => commands.insert(place.start + random.below(2), factor),
        // Elsewhere, once more or alone: after the last command of a kind, or anywhere. At times it is cut off there.
        6..=8 => {
            if random.chance(50) {
                commands.retain(|command| command[0] != 0x23);
            }
            let anywhere = random.below(commands.len() + 1);
            let after = commands.iter().rposition(|command| command[0] == kind).map_or(anywhere, |at| at + 1);
            let at = random.pick(&[anywhere, after, after]);
            commands.insert(at, factor);
            if random.chance(25) {
                commands.truncate(at + 1);
                commands[at].truncate(1 + random.below(2));
            }
        }
        // Cut off in its place: the scheme ends there, or goes on.
        9 | 10 => {
            let end = if random.chance(70) { commands.len() } else { place.end };
            commands.splice(place.start..end, [factor[..1 + random.below(2)].to_vec()]);
        }
        // The end directly after it, or a command of the scheme once more.
        _ => {
            let command = commands.iter().rfind(|command| command[0] == kind).cloned().unwrap_or(vec![0x2F]);
            commands.splice(place, [factor_command(right), command]);
        }
    }
}

/// A `23` where none may be: in a register, a certificate or a plan, first, last or anywhere, whole or cut off.
fn misplace_factor(random: &mut Random, commands: &mut Vec<Vec<u8>>) {
    let mut factor = factor_command(random.pick(&[1, 2, MAX_FACTOR, 0]));
    factor.truncate(random.pick(&[1, 2, 3, 3, 3, 3]));
    let anywhere = random.below(commands.len() + 1);
    commands.insert(random.pick(&[0, anywhere, commands.len()]), factor);
}

/// One more null form, of variables whose sets don't fit, but would by choices 0 to 31 alone, or by those from 32 on.
fn half_alike(random: &mut Random, commands: &mut Vec<Vec<u8>>, scheme: &Scheme) {
    let kind = random.pick(&[0x32, 0x33, 0x34]);
    let found = (0..2_000).find_map(|_| {
        let half = random.pick(&[LOWER, !LOWER]);
        let names: [usize; 4] = std::array::from_fn(|_| random.below(scheme.variables()));
        let fit = |part: u64| {
            let [i, j, k, l] = names.map(|name| scheme.sets[name] & part);
            match kind {
                0x32 => j & !i == 0,
                0x33 => names[1] < names[2] && i == j | k,
                _ => names[0] < names[1] && names[2] < names[3] && i | j == k | l,
            }
        };
        (fit(half) && !fit(u64::MAX)).then_some(names)
    });
    if let Some(names) = found {
        let names = names.map(|name| name as u8);
        let m = random.within(-1_000, 1_000);
        let place = random.below(commands.len()).max(1);
        commands.insert(place, command(kind, &[&names[..certificate::names_of(kind)], &m.to_le_bytes()]));
    }
}

/// Changes a row, its place, what stands after it, or what it bears on, in one way.
fn damage_rows(random: &mut Random, commands: &mut Vec<Vec<u8>>, n: usize) {
    let rows = places(commands, 0x14);
    let n = n.min(ROW_ENTRIES);
    let any: Vec<u8> = (0..2 + n).map(|_| random.next() as u8).collect();
    let mut fresh = vec![0; 3 + ROW_ENTRIES];
    fresh[0] = 0x14;
    // A row of 0s, of 1s, or of any entries with any total that is allowed.
    match random.below(3) {
        0 => {}
        1 => fresh[3..3 + n].fill(1),
        _ => {
            fresh[1..3 + n].copy_from_slice(&any);
            let total = i16::from_le_bytes([any[0], any[1]]) % (MAX_ROW_TOTAL as i16 + 1);
            fresh[1..3].copy_from_slice(&total.to_le_bytes());
        }
    }
    let choice_end = commands.iter().rposition(|command| command[0] == 0x11).map_or(1, |at| at + 1).min(commands.len());
    let Some(&at) = rows.get(random.below(rows.len().max(1))) else {
        // No row yet: one more, in its place, or anywhere.
        let anywhere = random.below(commands.len() + 1);
        let place = random.pick(&[choice_end, choice_end, choice_end, anywhere]);
        if random.chance(50) {
            wrong_row(random, &mut fresh, n);
        }
        return commands.insert(place, fresh);
    };
    let kind = random.pick(&[0x10, 0x11, 0x12, 0x13, 0x15, 0x18, 0x1F]);
    match random.below(16) {
        // One thing wrong, or two; of a row that is left as it was, or of all.
        0..=4 => wrong_row(random, &mut commands[at], n),
        // Another total or another entry, within its range: other plans fit, or none does.
        5 | 6 => {
            let total = operand(&commands[at], 0);
            let (more, less) = (total.wrapping_add(1), total.wrapping_sub(1));
            let total = random.pick(&[more, more, less, less, total.wrapping_neg(), 0]);
            set_operand(&mut commands[at], 0, total);
        }
        7 => {
            let entry = 3 + random.below(n);
            commands[at][entry] = random.pick(&[0, 1, 0xFF, 0x7F, 0x80, any[0]]);
        }
        // Every entry one choice further, or one choice back.
        8 if random.chance(50) => commands[at][3..].rotate_right(1),
        8 => commands[at][3..].rotate_left(1),
        // A command of another kind once more, directly after a row; or a row after or before one.
        9 | 10 => {
            if let Some(command) = commands.iter().rfind(|command| command[0] == kind).cloned() {
                commands.insert(at + 1, command);
            }
        }
        11 | 12 => {
            let row = if random.chance(50) { commands.remove(at) } else { fresh };
            let anywhere = random.below(commands.len() + 1);
            let after = commands.iter().rposition(|command| command[0] == kind).map_or(anywhere, |at| at + 1);
            let place = random.pick(&[0, anywhere, after, after]).min(commands.len());
            commands.insert(place, row);
            if random.chance(15) {
                let length = 1 + random.below(commands[place].len());
                commands[place].truncate(length);
                commands.truncate(place + 1);
            }
        }
        // No choice, or not the last: the rows speak of choices that are not there.
        13 => {
            let choices = places(commands, 0x11);
            let kept = random.below(choices.len() + 1);
            choices[kept..].iter().rev().for_each(|&at| drop(commands.remove(at)));
        }
        // Rows up to the limit or past it, the last of them perhaps wrong in another way too.
        _ => {
            let count = (MAX_ROWS + random.below(2)).saturating_sub(rows.len());
            let mut more = vec![if random.chance(50) { fresh } else { commands[at].clone() }; count];
            if let Some(last) = more.last_mut().filter(|_| random.chance(50)) {
                wrong_row(random, last, n);
                if random.chance(15) {
                    last.truncate(3 + random.below(ROW_ENTRIES));
                }
            }
            let end = rows[rows.len() - 1] + 1;
            commands.splice(end..end, more);
        }
    }
}

/// Makes a row wrong in one way, or in two; n is the number of choices that have entries. With 32 there is no entry past them.
fn wrong_row(random: &mut Random, row: &mut [u8], n: usize) {
    for _ in 0..1 + random.below(2) {
        if n < ROW_ENTRIES && random.chance(50) {
            let any = n + random.below(ROW_ENTRIES - n);
            row[3 + random.pick(&[n, n, ROW_ENTRIES - 1, any])] = random.pick(&[1, 0xFF, 0x80, 0x7F]);
        } else {
            let limit = MAX_ROW_TOTAL as i16;
            let near = random.pick(&[limit, limit + 1, limit - 1, -limit, -limit - 1, 1 - limit]);
            let any = random.next() as i16;
            let total = random.pick(&[near, near, near, i16::MAX, i16::MIN, near.swap_bytes(), any]);
            row[1..3].copy_from_slice(&total.to_le_bytes());
        }
    }
}

/// Changes a range, makes one where there was none or the reverse, or puts one elsewhere, in one way.
fn damage_ranges(random: &mut Random, commands: &mut Vec<Vec<u8>>, n: usize) {
    let (known, ranged) = ([places(commands, 0x12), places(commands, 0x15)].concat(), places(commands, 0x16));
    let all = all_of(n) & LOWER;
    let any = random.next() & all;
    let about = coefficient(random);
    let (low, high) = range_about(random, about);
    let mut fresh = Term { mask: random.pick(&[1, all, any]), low, high, ranged: true, position: 0 };
    let term_end = commands.iter().rposition(|command| matches!(command[0], 0x11..=0x16)).map_or(0, |at| at + 1);
    let Some(&at) = ranged.get(random.below(ranged.len().max(1))) else {
        // No range yet: one in place of a coefficient, or one more.
        match known.get(random.below(known.len().max(1))) {
            Some(&at) if random.chance(60) => with_range(random, &mut commands[at]),
            _ => {
                let anywhere = random.below(commands.len() + 1);
                commands.insert(random.pick(&[anywhere, term_end, term_end]), term_command(&fresh));
            }
        }
        return;
    };
    let kind = random.pick(&[0x10, 0x11, 0x12, 0x13, 0x14, 0x15, 0x18, 0x1F]);
    match random.below(18) {
        // One thing wrong, or up to three.
        0..=4 => wrong_range(random, &mut commands[at], n),
        // Low and high exchanged; the high one below the low, at it, or one above.
        5 | 6 => commands[at][5..].rotate_left(4),
        7 => {
            let low = i32::from_le_bytes(commands[at][5..9].try_into().unwrap());
            let high = low.wrapping_add(random.pick(&[-1, 0, 1]));
            commands[at][9..].copy_from_slice(&high.to_le_bytes());
        }
        // A coefficient in its place, or in place of each range; a range in place of a coefficient.
        8 => known_again(&mut commands[at]),
        9 => ranged.iter().for_each(|&at| known_again(&mut commands[at])),
        10 => {
            if let Some(&at) = known.get(random.below(known.len().max(1))) {
                with_range(random, &mut commands[at]);
            }
        }
        // A term of the same mask, of its kind or with a coefficient, before it or after it.
        11 => {
            let mut again = commands[at].clone();
            if random.chance(50) {
                known_again(&mut again);
            }
            commands.insert(at + random.below(2), again);
        }
        // Exchanged with another term.
        12 => {
            let terms = [known, ranged].concat();
            commands.swap(at, random.pick(&terms));
        }
        // One more, or this one, first, after the last command of a kind, or anywhere. At times it is cut off there.
        13 | 14 => {
            let range = if random.chance(50) { commands.remove(at) } else { term_command(&fresh) };
            let anywhere = random.below(commands.len() + 1);
            let after = commands.iter().rposition(|command| command[0] == kind).map_or(anywhere, |at| at + 1);
            let place = random.pick(&[0, anywhere, after, after]);
            commands.insert(place, range);
            if random.chance(20) {
                let length = 1 + random.below(commands[place].len() - 1);
                commands[place].truncate(length);
                commands.truncate(place + 1);
            }
        }
        // A command of another kind once more, directly after it.
        15 => {
            if let Some(command) = commands.iter().rfind(|command| command[0] == kind).cloned() {
                commands.insert(at + 1, command);
            }
        }
        // One more term after the last, of all choices: past the limit where the register is full.
        _ => {
            fresh.mask = all;
            let mut more = term_command(&fresh);
            if random.chance(30) {
                known_again(&mut more);
            } else if random.chance(50) {
                wrong_range(random, &mut more, n);
            }
            commands.insert(term_end, more);
        }
    }
}

/// Makes a `12` of a `16`: its coefficient is the low.
fn known_again(command: &mut Vec<u8>) {
    command[0] = 0x12;
    command.truncate(9);
}

/// Makes a range wrong in one way, or in up to three, or puts its numbers at their limits; n is the number of choices.
fn wrong_range(random: &mut Random, range: &mut [u8], n: usize) {
    let limit = MAX_COEFFICIENT as i32;
    for _ in 0..1 + random.below(3) {
        let near = random.pick(&[limit, limit + 1, limit + 1, -limit, -limit - 1, -limit - 1, i32::MIN, i32::MAX, 0]);
        // With 32 choices or more a range has no room for one that is not there.
        let past = (1u64 << n) as u32 | random.pick(&[0, 1]);
        match random.below(4) {
            0 => range[1..5].copy_from_slice(&random.pick(&[0, past, past, 1, 1]).to_le_bytes()),
            1 => range[5..9].copy_from_slice(&near.to_le_bytes()),
            2 => range[9..13].copy_from_slice(&near.to_le_bytes()),
            _ => range[5..13].rotate_left(4),
        }
    }
}

/// Changes a `15`, makes one where there was none or the reverse, or puts one elsewhere, in one way.
fn damage_wide_terms(random: &mut Random, commands: &mut Vec<Vec<u8>>, n: usize) {
    let (wide, others) = (places(commands, 0x15), [places(commands, 0x12), places(commands, 0x16)].concat());
    let all = all_of(n);
    let any = random.next() & all;
    let about = coefficient(random);
    let fresh = wide_term(random.pick(&[1, all, any, any & LOWER, any & !LOWER]), about);
    let term_end = commands.iter().rposition(|command| matches!(command[0], 0x11..=0x16)).map_or(0, |at| at + 1);
    let Some(&at) = wide.get(random.below(wide.len().max(1))) else {
        // No `15` yet: one in place of another term, or one more.
        match others.get(random.below(others.len().max(1))) {
            Some(&at) if random.chance(60) => commands[at] = wide_term(mask_of(&commands[at]), last_number(&commands[at])),
            _ => {
                let anywhere = random.below(commands.len() + 1);
                commands.insert(random.pick(&[anywhere, term_end, term_end]), fresh);
            }
        }
        return;
    };
    let kind = random.pick(&[0x10, 0x11, 0x12, 0x13, 0x14, 0x16, 0x18, 0x1F]);
    match random.below(20) {
        // One thing wrong, or up to three.
        0..=4 => wrong_wide_term(random, &mut commands[at], n),
        // A `12` or a `16` in its place, or only the command byte of one; of another term only the command byte of this one.
        5 => narrowed(random, &mut commands[at]),
        6 if random.chance(50) => commands[at][0] = random.pick(&[0x12, 0x16]),
        6 => {
            if let Some(&at) = others.get(random.below(others.len().max(1))) {
                commands[at][0] = 0x15;
            }
        }
        // A term of the same mask, of any kind, before it or after it.
        7..=9 => {
            let mut again = commands[at].clone();
            if mask_of(&again) <= LOWER && random.chance(70) {
                narrowed(random, &mut again);
            }
            commands.insert(at + random.below(2), again);
        }
        // Exchanged with another term.
        10 => {
            let terms = [wide, others].concat();
            commands.swap(at, random.pick(&terms));
        }
        // One more, or this one, first, after the last command of a kind, or anywhere. At times it is cut off there.
        11..=13 => {
            let term = if random.chance(50) { commands.remove(at) } else { fresh };
            let anywhere = random.below(commands.len() + 1);
            let after = commands.iter().rposition(|command| command[0] == kind).map_or(anywhere, |at| at + 1);
            let place = random.pick(&[0, anywhere, after, after]);
            commands.insert(place, term);
            if random.chance(30) {
                let length = 1 + random.below(commands[place].len() - 1);
                commands[place].truncate(length);
                commands.truncate(place + 1);
            }
        }
        // A command of another kind directly after it, once more or the first.
        14 | 15 => {
            let length = length_of(commands);
            let first = match kind {
                0x13 => window_command(&Window { tank: 9_999, from: 0, to: length }),
                0x14 => row_command(&Row { total: 0, entries: [0; ROW_ENTRIES] }),
                0x18 => day_command(length),
                _ => term_command(&Term { ranged: true, ..Term::known(LOWER & all, about) }),
            };
            let command = commands.iter().rfind(|command| command[0] == kind).cloned().unwrap_or(first);
            commands.insert(at + 1, command);
        }
        // More of them after the last term, up to the limit or past it, the last of them perhaps wrong in another way too.
        _ => {
            let wanted = MAX_TERMS + random.pick(&[0, 1, 1]);
            let count = if random.chance(70) { wanted.saturating_sub(wide.len() + others.len()) as u64 } else { 1 };
            // Masks that rise up to that of all choices, as many as there are.
            let mut more: Vec<_> = (all.saturating_sub(count)..all).map(|mask| wide_term(mask + 1, about)).collect();
            if let Some(last) = more.last_mut().filter(|_| random.chance(50)) {
                if random.chance(40) {
                    narrowed(random, last);
                } else {
                    wrong_wide_term(random, last, n);
                }
            }
            commands.splice(term_end..term_end, more);
        }
    }
}

/// Makes a `12` or a `16` of a `15`, which has no room for the upper half of the mask.
fn narrowed(random: &mut Random, term: &mut Vec<u8>) {
    let (mask, coefficient) = (mask_of(term) & LOWER, last_number(term));
    *term = term_command(&Term { ranged: random.chance(50), ..Term::known(mask, coefficient) });
}

/// Makes a `15` wrong in one way, or in up to three, or puts its numbers at their limits; n is the number of choices.
fn wrong_wide_term(random: &mut Random, term: &mut [u8], n: usize) {
    let limit = MAX_COEFFICIENT as i32;
    for _ in 0..1 + random.below(3) {
        let near = random.pick(&[limit, limit + 1, limit + 1, -limit, -limit - 1, -limit - 1, i32::MIN, i32::MAX, 0, 0]);
        let past: u64 = 1 << number_past(random, n);
        let mask = u64::from_le_bytes(term[1..9].try_into().unwrap());
        match random.below(5) {
            0 => term[1..9].copy_from_slice(&random.pick(&[0, 0, past, past | 1, 1]).to_le_bytes()),
            1 => term[1..9].copy_from_slice(&(mask | past).to_le_bytes()),
            // The halves of the mask exchanged.
            2 => term[1..9].rotate_left(4),
            _ => term[9..13].copy_from_slice(&near.to_le_bytes()),
        }
    }
}

/// The number of a choice that is not there, of n: the first, the next, one past the limit, or one at an end of the upper half.
fn number_past(random: &mut Random, n: usize) -> usize {
    random.pick(&[n, n, n + 1, n.max(32), n.max(MAX_CHOICES - 1), MAX_CHOICES, 63])
}

/// Changes a `3B`, or puts one more, in one way; where there is no row each is wrong.
fn damage_row_forms(random: &mut Random, commands: &mut Vec<Vec<u8>>, rows: usize, variables: usize) {
    let places = places(commands, 0x3B);
    let at = match places.get(random.below(places.len().max(1))) {
        Some(&at) if random.chance(70) => at,
        _ => {
            let place = 1 + random.below(commands.len());
            let names = [random.below(rows.max(1)) as u8, random.below(variables) as u8];
            let any = random.within(-1_000, 1_000);
            let m = random.pick(&[0, 1, -1, any]);
            commands.insert(place, command(0x3B, &[&names, &m.to_le_bytes()]));
            place
        }
    };
    let form = &mut commands[at];
    for _ in 0..1 + random.below(2) {
        match random.below(6) {
            0 => form[1] = random.pick(&[rows as u8, rows as u8, rows.wrapping_sub(1) as u8, MAX_ROWS as u8, 0xFF]),
            1 => form[2] = random.pick(&[variables as u8, variables as u8, variables as u8 - 1, 63, 64, 0xFF]),
            2 => form.swap(1, 2),
            3 => {
                let m = i64::from_le_bytes(form[3..11].try_into().unwrap());
                form[3..11].copy_from_slice(&m.saturating_neg().to_le_bytes());
            }
            _ => {
                let limit = random.pick(&[certificate::MAX_ROW_MULTIPLIER, certificate::MAX_MULTIPLIER]);
                let m = random.pick(&[limit, limit + 1, limit - 1, -limit, -limit - 1, 1 - limit, 1 << 32, i64::MIN]);
                form[3..11].copy_from_slice(&m.to_le_bytes());
            }
        }
    }
    if random.chance(5) {
        let length = 1 + random.below(form.len());
        form.truncate(length);
        commands.truncate(at + 1);
    }
}

/// Another plan, by either command: a choice more or less, two others, none, all, any, one that names a choice which is not there,
/// or one with its halves exchanged. At times only the command byte is another, or it is cut off.
fn damage_plan(random: &mut Random, bytes: &mut Vec<u8>, n: usize) {
    let Some(plan) = plan_of(bytes) else { return };
    let (a, b) = (random.below(n), random.below(n));
    let (all, past) = (all_of(n), 1 << number_past(random, n));
    let other = match random.below(12) {
        0..=2 => plan ^ 1 << a,
        3..=5 => plan ^ (1 << a | 1 << b),
        6 => random.pick(&[0, all]),
        7 => random.next() & all,
        8 => plan.rotate_left(32),
        9 => plan | past,
        10 => plan ^ 1 << a ^ past,
        _ => plan,
    };
    let size = 1 + widths(bytes[0])[0];
    let command = if random.chance(50) { wide_plan(other) } else { plan_command(other) };
    bytes.splice(..size, command);
    if other == plan && random.chance(50) {
        bytes[0] = if bytes[0] == 0x40 { 0x41 } else { 0x40 };
    } else if other == plan {
        bytes.truncate(1 + random.below(8));
    }
}

/// The length of the day that a register's commands say, the usual one where they say none that is right.
fn length_of(commands: &[Vec<u8>]) -> u16 {
    let said = places(commands, 0x18).first().map(|&at| operand(&commands[at], 0));
    said.filter(|length| DAY_LENGTHS.contains(length)).unwrap_or(USUAL_DAY)
}

/// Where whole commands of this byte stand.
fn places(commands: &[Vec<u8>], byte: u8) -> Vec<usize> {
    let size = 1 + widths(byte).iter().sum::<usize>();
    (0..commands.len()).filter(|&at| commands[at].first() == Some(&byte) && commands[at].len() == size).collect()
}

/// Operand i of a command whose operands are u16.
fn operand(command: &[u8], i: usize) -> u16 {
    u16::from_le_bytes([command[1 + 2 * i], command[2 + 2 * i]])
}

fn set_operand(command: &mut [u8], i: usize, value: u16) {
    command[1 + 2 * i..3 + 2 * i].copy_from_slice(&value.to_le_bytes());
}

fn notable_operand(random: &mut Random, command: &mut [u8], n: usize, all: usize) {
    let widths = widths(command[0]);
    if widths.is_empty() {
        return;
    }
    let which = random.below(widths.len());
    let at: usize = 1 + widths[..which].iter().sum::<usize>();
    let near = random.within(-1, 1);
    let past = number_past(random, n);
    let value = match widths[which] {
        8 if matches!(command[0], 0x15 | 0x41) => {
            random.pick(&[0, 1, 1 << (n - 1), 1 << n, 1 << 31, 1 << 32, 1 << past, i64::MAX]).wrapping_add(near)
        }
        1 => random.pick(&[0, n as i64 - 1, n as i64, all as i64 - 1, all as i64, 63, 64, 255]),
        2 if command[0] == 0x23 => random.pick(&[0, 1, MAX_FACTOR as i64, MAX_FACTOR as i64]) + near,
        2 => {
            let length = random.pick(&DAY_LENGTHS) as i64;
            random.pick(&[0, 1, 9_999, length, length, 10_000, -10_000, 32_767, -32_768]) + near
        }
        4 => random.pick(&[0, 1, 1 << (n - 1), 1 << n, 1_000_000, -1_000_000, 1_000_000_000, -1_000_000_000, 1 << 31]) + near,
        _ => {
            let limit = random.pick(&[0, 1_000_000_000_000, 4_000_000_000_000_000, i64::MAX - 1]);
            if random.chance(50) {
                limit + near
            } else {
                near - limit
            }
        }
    };
    if let Some(operand) = command.get_mut(at..at + widths[which]) {
        operand.copy_from_slice(&value.to_le_bytes()[..widths[which]]);
    }
}

/// Changes a run of bytes in one way.
fn damage_bytes(random: &mut Random, bytes: &mut Vec<u8>) {
    let at = random.below(bytes.len() + 1);
    match random.below(10) {
        0 | 1 => bytes.truncate(at),
        2 => bytes.truncate(bytes.len().saturating_sub(1 + random.below(12))),
        3 | 4 if at < bytes.len() => bytes[at] ^= 1 << random.below(8),
        5 if at < bytes.len() => bytes[at] = random.next() as u8,
        6 => bytes.insert(at, if random.chance(50) { random.pick(&COMMANDS) } else { random.next() as u8 }),
        7 if at < bytes.len() => {
            bytes.remove(at);
        }
        8 => {
            let count = random.below(20);
            *bytes = (0..count).map(|_| if random.chance(50) { random.pick(&COMMANDS) } else { random.next() as u8 }).collect();
        }
        _ => {
            let count = random.pick(&[1, 1, 2, 20, 30_000]);
            bytes.extend((0..count).map(|_| if random.chance(50) { random.pick(&COMMANDS) } else { random.next() as u8 }));
        }
    }
}

// What a supplier is not shown.

/// The job, whose register this is, with other tanks, minutes, "from" and "to", and every other byte as it was. Where the job is
/// accepted, this one mostly is.
pub fn with_other_places(random: &mut Random, job: &[u8], register: &Register) -> Vec<u8> {
    let mut operands = hidden_operands(register);
    match random.below(4) {
        0 => operands = hidden_operands(&with_other_tanks(random, register)),
        1 | 2 => {
            let mut other = register.clone();
            other.choices = choices(random, register.choices.len(), register.day_length);
            if !register.windows.is_empty() {
                let percent = random.pick(&[70, 20, 0]);
                other.windows = so_many_windows(random, &other, register.windows.len(), percent);
                other.windows.truncate(register.windows.len());
            }
            operands = hidden_operands(&other);
        }
        // One number, or a few.
        _ => {
            for _ in 0..1 + random.below(3) {
                let at = random.below(operands.len());
                let (old, any) = (operands[at], 1 + random.below(9_999) as u16);
                operands[at] = random.pick(&[old.wrapping_add(1), old.wrapping_sub(1), any, any % LONG_DAY]);
            }
        }
    }
    let mut other = job.to_vec();
    for (at, operand) in hidden_positions(job).into_iter().zip(operands) {
        other[at..at + 2].copy_from_slice(&operand.to_le_bytes());
    }
    other
}

/// The same with tanks of other numbers, in the same order.
fn with_other_tanks(random: &mut Random, register: &Register) -> Register {
    let mut other = register.clone();
    let windows = other.windows.iter_mut().map(|window| &mut window.tank);
    let mut tanks: Vec<&mut u16> = windows.chain(other.choices.iter_mut().map(|choice| &mut choice.tank)).collect();
    let old: BTreeSet<u16> = tanks.iter().map(|tank| **tank).collect();
    let mut new = BTreeSet::new();
    while new.len() < old.len() {
        let any = 1 + random.below(9_999) as u16;
        new.insert(random.pick(&[any, any, 1, 2, 3, 9_998, 9_999]));
    }
    let renumbered: BTreeMap<u16, u16> = old.into_iter().zip(new).collect();
    tanks.iter_mut().for_each(|tank| **tank = renumbered[*tank]);
    other
}

/// The operands that a supplier is not shown, in the order of the bytes.
fn hidden_operands(register: &Register) -> Vec<u16> {
    let windows = register.windows.iter().flat_map(|window| [window.tank, window.from, window.to]);
    windows.chain(register.choices.iter().flat_map(|choice| [choice.tank, choice.minute])).collect()
}

/// Where they stand in an accepted job.
fn hidden_positions(job: &[u8]) -> Vec<usize> {
    let (mut at, mut found) = (0, Vec::new());
    while job[at] != 0x1F {
        let size = 1 + widths(job[at]).iter().sum::<usize>();
        if matches!(job[at], 0x11 | 0x13) {
            found.extend((at + 1..at + size).step_by(2));
        }
        at += size;
    }
    found
}
