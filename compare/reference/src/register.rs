//! Part 1, the register.

use crate::wire::{Command, Commands, Read};
use std::ops::RangeInclusive;

pub const MAX_WINDOWS: usize = 64;
pub const MAX_CHOICES: usize = 48;
pub const MAX_ROWS: usize = 8;
pub const MAX_TERMS: usize = 256;
pub const TANKS: RangeInclusive<u16> = 1..=9_999;

/// The minutes of the day on which the clocks go forward.
pub const SHORT_DAY: u16 = 1_380;
/// The minutes of a day on which the clocks are left alone.
pub const USUAL_DAY: u16 = 1_440;
/// The minutes of the day on which the clocks go back.
pub const LONG_DAY: u16 = 1_500;
pub const DAY_LENGTHS: [u16; 3] = [SHORT_DAY, USUAL_DAY, LONG_DAY];

/// Minutes at which a tank may be fed: `from` and those after it, before `to`.
#[derive(Clone, Copy, Debug, PartialEq, Eq)]
pub struct Window {
    pub tank: u16,
    pub from: u16,
    pub to: u16,
}

impl Window {
    pub fn contains(&self, minute: u16) -> bool {
        (self.from..self.to).contains(&minute)
    }
}

#[derive(Clone, Copy, Debug, PartialEq, Eq)]
pub struct Choice {
    pub tank: u16,
    pub minute: u16,
}

/// The largest total of a row, either sign.
pub const MAX_ROW_TOTAL: u16 = 4_064;

/// The entries of a row, of choices 0 to 31.
pub const ROW_ENTRIES: usize = 32;

/// A plan fits the row when the entries of the choices that it feeds come to the total; 004's linear constraint. Entries of choices
/// that are not there hold 0; a choice past the entries is in no row.
#[derive(Clone, Copy, Debug, PartialEq, Eq)]
pub struct Row {
    pub total: i16,
    pub entries: [i8; ROW_ENTRIES],
}

impl Row {
    /// The sum of the entries of these choices; at most 32 · 128.
    pub fn sum_of(&self, plan: u64) -> i16 {
        self.entries.iter().enumerate().filter(|(j, _)| plan & 1 << j != 0).map(|(_, &entry)| entry as i16).sum()
    }
}

/// The largest coefficient, either sign; of a range both ends.
pub const MAX_COEFFICIENT: u32 = 1_000_000;

/// A term's coefficient is known, or known to be within a range.
#[derive(Clone, Copy, Debug, PartialEq, Eq)]
pub struct Term {
    pub mask: u64,
    /// The least that the coefficient may be.
    pub low: i32,
    /// The most, the low once more where the coefficient is known.
    pub high: i32,
    /// Whether it came as a range, `16`.
    pub ranged: bool,
    /// Where its command stands; the builder's refusal names it.
    pub position: usize,
}

impl Term {
    /// A term whose coefficient is known.
    pub fn known(mask: u64, coefficient: i32) -> Term {
        Term { mask, low: coefficient, high: coefficient, ranged: false, position: 0 }
    }

    /// Whether the plan feeds all choices that the term names.
    pub fn fed(&self, plan: u64) -> bool {
        self.mask & plan == self.mask
    }

    /// The coefficient beside a plan: the high where the plan feeds the term's choices, else the low.
    pub fn beside(&self, plan: u64) -> i32 {
        if self.fed(plan) {
            self.high
        } else {
            self.low
        }
    }
}

#[derive(Clone, Debug, PartialEq, Eq)]
pub struct Register {
    pub base: i32,
    /// How many minutes the day has: every minute is below it, and a window's `to` at most it.
    pub day_length: u16,
    pub windows: Vec<Window>,
    pub choices: Vec<Choice>,
    pub rows: Vec<Row>,
    pub terms: Vec<Term>,
}

impl Register {
    /// The mask of all choices.
    pub fn all(&self) -> u64 {
        (1 << self.choices.len()) - 1
    }

    /// Whether a term came as a range.
    pub fn has_range(&self) -> bool {
        self.terms.iter().any(|term| term.ranged)
    }

    /// Whether the plan fits every row.
    pub fn fits(&self, plan: u64) -> bool {
        self.rows.iter().all(|row| row.sum_of(plan) == row.total)
    }

    /// Whether the windows let the tank be fed at this minute; a tank that has none may be fed at any.
    pub fn may_feed(&self, tank: u16, minute: u16) -> bool {
        let mut of_tank = self.windows.iter().filter(|window| window.tank == tank).peekable();
        of_tank.peek().is_none() || of_tank.any(|window| window.contains(minute))
    }
}

pub fn read(bytes: &[u8]) -> Read<Register> {
    let mut commands = Commands::new(bytes);
    let first = commands.next(|byte| (byte == 0x10).then_some(4))?;
    let base = first.i32(0);
    first.refuse(4, base.unsigned_abs() > 1_000_000_000)?;
    let mut register =
        Register { base, day_length: USUAL_DAY, windows: Vec::new(), choices: Vec::new(), rows: Vec::new(), terms: Vec::new() };
    let mut previous = first.byte;
    loop {
        // Where there is no choice there is no term either: a mask names choices. A row needs none.
        let (no_choice_yet, no_term_yet) = (register.choices.is_empty(), register.terms.is_empty());
        let no_row_yet = register.rows.is_empty();
        let command = commands.next(|byte| match byte {
            0x11 if no_row_yet && no_term_yet => Some(4),
            0x12 => Some(8),
            0x13 if no_choice_yet && no_row_yet => Some(6),
            0x14 if no_term_yet => Some(2 + ROW_ENTRIES),
            0x15 | 0x16 => Some(12),
            0x18 if previous == 0x10 => Some(2),
            0x1F => Some(0),
            _ => None,
        })?;
        previous = command.byte;
        match command.byte {
            0x11 => {
                let (tank, minute) = (command.u16(0), command.u16(2));
                command.refuse(3, register.choices.len() == MAX_CHOICES)?;
                command.refuse(4, !TANKS.contains(&tank) || minute >= register.day_length)?;
                command.refuse(7, register.choices.last().is_some_and(|last| (last.tank, last.minute) >= (tank, minute)))?;
                command.refuse(13, !register.may_feed(tank, minute))?;
                register.choices.push(Choice { tank, minute });
            }
            0x12 | 0x15 | 0x16 => {
                let term = term(&command);
                command.refuse(3, register.terms.len() == MAX_TERMS)?;
                let out_of_range = [term.low, term.high].iter().any(|end| end.unsigned_abs() > MAX_COEFFICIENT);
                command.refuse(4, out_of_range || !term.ranged && term.low == 0)?;
                command.refuse(5, term.mask == 0 || term.mask & !register.all() != 0)?;
                command.refuse(6, term.low > term.high)?;
                command.refuse(7, register.terms.last().is_some_and(|last| last.mask >= term.mask))?;
                register.terms.push(term);
            }
            0x13 => {
                let (tank, from, to) = (command.u16(0), command.u16(2), command.u16(4));
                let length = register.day_length;
                command.refuse(3, register.windows.len() == MAX_WINDOWS)?;
                command.refuse(4, !TANKS.contains(&tank) || from >= length || !(1..=length).contains(&to))?;
                command.refuse(6, from >= to)?;
                command.refuse(7, register.windows.last().is_some_and(|last| (last.tank, last.from) >= (tank, from)))?;
                register.windows.push(Window { tank, from, to });
            }
            0x14 => {
                let total = command.i16(0);
                let entries: [i8; ROW_ENTRIES] = std::array::from_fn(|j| command.u8(2 + j) as i8);
                command.refuse(3, register.rows.len() == MAX_ROWS)?;
                command.refuse(4, total.unsigned_abs() > MAX_ROW_TOTAL)?;
                command.refuse(5, entries.iter().skip(register.choices.len()).any(|&entry| entry != 0))?;
                register.rows.push(Row { total, entries });
            }
            0x18 => {
                let length = command.u16(0);
                command.refuse(4, !DAY_LENGTHS.contains(&length))?;
                register.day_length = length;
            }
            _ => {
                command.refuse(3, register.choices.is_empty())?;
                return Ok((register, commands.at));
            }
        }
    }
}

/// What a `12`, a `15` or a `16` says, right or wrong.
fn term(command: &Command) -> Term {
    let (mask, low, high) = match command.byte {
        0x15 => (command.u64(0), command.i32(8), command.i32(8)),
        0x16 => (command.u32(0) as u64, command.i32(4), command.i32(8)),
        _ => (command.u32(0) as u64, command.i32(4), command.i32(4)),
    };
    Term { mask, low, high, ranged: command.byte == 0x16, position: command.position }
}
