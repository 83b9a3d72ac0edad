//! Part 3, the certificate: what it is added up to, and whether it carries its target.

use crate::register::Register;
use crate::scheme::{add_function, Scheme};
use crate::table::Table;
use crate::wire::{Command, Commands, Fault, Read};

pub const MAX_SCALE: u32 = 1_000_000;
pub const MAX_TARGET: i64 = 4_000_000_000_000_000;
pub const MAX_MULTIPLIERS: usize = 1_024;
pub const MAX_MULTIPLIER: i64 = 1_000_000_000_000;
pub const MAX_ROW_MULTIPLIER: i64 = 1_000_000_000;
pub const MAX_SQUARES: usize = 64;
pub const MAX_WEIGHT: u32 = 1_000_000;
pub const ENTRIES: usize = 65;
pub const MAX_ENTRY: u16 = 10_000;

#[derive(Clone, Debug, PartialEq, Eq)]
pub struct Multiplier {
    /// The command byte, `31` to `39` or `3B`.
    pub kind: u8,
    /// The variables that it names, in order; the rest are 0. Of `3B` the first is a row.
    pub names: [usize; 4],
    pub m: i64,
}

#[derive(Clone, Debug, PartialEq, Eq)]
pub struct Square {
    pub weight: u32,
    pub entries: [i16; ENTRIES],
}

#[derive(Clone, Debug, PartialEq, Eq)]
pub struct Certificate {
    pub scale: u32,
    pub target: i64,
    pub multipliers: Vec<Multiplier>,
    pub squares: Vec<Square>,
    /// Where `3F` stands.
    pub end: usize,
}

/// How many variables a multiplier command names; `3B` a row and a variable.
pub fn names_of(kind: u8) -> usize {
    match kind {
        0x32 | 0x3B => 2,
        0x33 => 3,
        0x34 => 4,
        _ => 1,
    }
}

/// The largest multiplier of a kind.
pub fn largest(kind: u8) -> i64 {
    if kind == 0x3B {
        MAX_ROW_MULTIPLIER
    } else {
        MAX_MULTIPLIER
    }
}

/// Whether a kind takes multipliers of either sign: null forms and forms of rows, which are 0 on the plans that they speak of.
pub fn signed(kind: u8) -> bool {
    matches!(kind, 0x31..=0x34 | 0x3B)
}

pub fn read(register: &Register, scheme: &Scheme, bytes: &[u8]) -> Read<Certificate> {
    let mut commands = Commands::new(bytes);
    let first = commands.next(|byte| (byte == 0x30).then_some(12))?;
    let (scale, target) = (first.u32(0), first.i64(4));
    first.refuse(4, !(1..=MAX_SCALE).contains(&scale) || target.unsigned_abs() > MAX_TARGET as u64)?;
    let mut certificate = Certificate { scale, target, multipliers: Vec::new(), squares: Vec::new(), end: 0 };
    loop {
        let command = commands.next(|byte| match byte {
            0x31..=0x39 | 0x3B => Some(names_of(byte) + 8),
            0x3A => Some(4 + 2 * ENTRIES),
            0x3F => Some(0),
            _ => None,
        })?;
        match command.byte {
            0x31..=0x39 | 0x3B => {
                command.refuse(3, certificate.multipliers.len() == MAX_MULTIPLIERS)?;
                certificate.multipliers.push(multiplier(register, scheme, &command)?);
            }
            0x3A => {
                command.refuse(3, certificate.squares.len() == MAX_SQUARES)?;
                certificate.squares.push(square(scheme, &command)?);
            }
            _ => {
                certificate.end = command.position;
                return Ok((certificate, commands.at));
            }
        }
    }
}

fn multiplier(register: &Register, scheme: &Scheme, command: &Command) -> Result<Multiplier, Fault> {
    let kind = command.byte;
    let count = names_of(kind);
    let mut names = [0; 4];
    for (at, name) in names[..count].iter_mut().enumerate() {
        *name = command.u8(at) as usize;
    }
    let m = command.i64(count);
    command.refuse(4, m.unsigned_abs() > largest(kind) as u64 || !signed(kind) && m < 0)?;
    let (rows, variables) = names[..count].split_at((kind == 0x3B) as usize);
    let first = if (0x35..=0x37).contains(&kind) { scheme.choices } else { 0 };
    let no_variable = |&v: &usize| v < first || v >= scheme.variables();
    command.refuse(5, rows.iter().any(|&row| row >= register.rows.len()) || variables.iter().any(no_variable))?;
    let [i, j, k, l] = names;
    command.refuse(
        6,
        match kind {
            0x33 => j >= k,
            0x34 => i >= j || k >= l,
            _ => false,
        },
    )?;
    let sets = &scheme.sets;
    let fits = match kind {
        0x32 => sets[j] & !sets[i] == 0 && sets[j] != sets[i],
        0x33 => sets[i] == scheme.union(j, k),
        0x34 => scheme.union(i, j) == scheme.union(k, l),
        _ => true,
    };
    command.refuse(8, !fits)?;
    Ok(Multiplier { kind, names, m })
}

fn square(scheme: &Scheme, command: &Command) -> Result<Square, Fault> {
    let weight = command.u32(0);
    let mut entries = [0; ENTRIES];
    for (at, entry) in entries.iter_mut().enumerate() {
        *entry = command.i16(4 + 2 * at);
    }
    let out_of_range = entries.iter().any(|entry| entry.unsigned_abs() > MAX_ENTRY);
    command.refuse(4, !(1..=MAX_WEIGHT).contains(&weight) || out_of_range)?;
    command.refuse(5, entries[scheme.variables() + 1..].iter().any(|&entry| entry != 0))?;
    Ok(Square { weight, entries })
}

/// The table R, with the coefficients beside the plan.
pub fn residual(register: &Register, scheme: &Scheme, plan: u64, certificate: &Certificate) -> Table {
    let mut table = Table::new(scheme.variables());
    add_function(register, scheme, plan, certificate.scale as i64, &mut table);
    table.add_constant(-certificate.target);
    for multiplier in &certificate.multipliers {
        add_multiplier(register, scheme, multiplier, &mut table);
    }
    for square in &certificate.squares {
        table.subtract_square(square.weight as i64, &square.entries);
    }
    table
}

fn add_multiplier(register: &Register, scheme: &Scheme, multiplier: &Multiplier, table: &mut Table) {
    let [i, j, k, l] = multiplier.names;
    let m = multiplier.m;
    match multiplier.kind {
        // Null forms, added.
        0x31 => {
            table.add_product(i, i, m);
            table.add_linear(i, -m);
        }
        0x32 => {
            table.add_linear(i, m);
            table.add_product(i, j, -m);
        }
        0x33 => {
            table.add_linear(i, m);
            table.add_product(j, k, -m);
        }
        0x34 => {
            table.add_product(i, j, m);
            table.add_product(k, l, -m);
        }
        // z_j times (the row's sum over the choices − b), added. The square of a choice stays a square.
        0x3B => {
            let row = &register.rows[i];
            for (choice, &entry) in row.entries.iter().take(scheme.choices).enumerate() {
                table.add_product(j, choice, m * entry as i64);
            }
            table.add_linear(j, -m * row.total as i64);
        }
        // Forms that are never negative, subtracted.
        0x35 => {
            table.add_linear(scheme.operands(i).0, -m);
            table.add_linear(i, m);
        }
        0x36 => {
            table.add_linear(scheme.operands(i).1, -m);
            table.add_linear(i, m);
        }
        0x37 => {
            table.add_linear(i, -m);
            table.add_linear(scheme.operands(i).0, m);
            table.add_linear(scheme.operands(i).1, m);
            table.add_constant(-m);
        }
        0x38 => table.add_linear(i, -m),
        _ => {
            table.add_constant(-m);
            table.add_linear(i, m);
        }
    }
}

impl Certificate {
    /// T/s rounded up to a whole number.
    pub fn bound(&self) -> i64 {
        -(-self.target).div_euclid(self.scale as i64)
    }

    /// The bytes of part 3.
    pub fn bytes(&self) -> Vec<u8> {
        let mut bytes = vec![0x30];
        bytes.extend(self.scale.to_le_bytes());
        bytes.extend(self.target.to_le_bytes());
        for multiplier in &self.multipliers {
            bytes.push(multiplier.kind);
            bytes.extend(multiplier.names[..names_of(multiplier.kind)].iter().map(|&v| v as u8));
            bytes.extend(multiplier.m.to_le_bytes());
        }
        for square in &self.squares {
            bytes.push(0x3A);
            bytes.extend(square.weight.to_le_bytes());
            bytes.extend(square.entries.iter().flat_map(|entry| entry.to_le_bytes()));
        }
        bytes.push(0x3F);
        bytes
    }
}
