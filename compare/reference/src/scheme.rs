//! Part 2, the scheme, and the function g that it writes the cost as.

use crate::plan::FEEDS_NONE;
use crate::register::Register;
use crate::table::Table;
use crate::wire::{Commands, Read};

pub const MAX_PRODUCTS: usize = 32;

/// The most variables, choices and products together.
pub const MAX_VARIABLES: usize = 64;

/// The largest factor of the weights.
pub const MAX_FACTOR: u16 = 1_000;

#[derive(Clone, Debug, PartialEq, Eq)]
pub struct Scheme {
    /// The number n of choices.
    pub choices: usize,
    /// The operands of product n, n + 1, ..
    pub products: Vec<(usize, usize)>,
    /// The split of each term.
    pub splits: Vec<(usize, usize)>,
    /// The set E of each variable, as a mask.
    pub sets: Vec<u64>,
    /// What the weights are multiplied by, 1 where no command says it.
    pub factor: u16,
}

impl Scheme {
    /// A scheme with no products and no splits yet.
    pub fn of_choices(choices: usize) -> Scheme {
        let sets = (0..choices).map(|i| 1 << i).collect();
        Scheme { choices, products: Vec::new(), splits: Vec::new(), sets, factor: 1 }
    }

    /// The number N of variables.
    pub fn variables(&self) -> usize {
        self.sets.len()
    }

    pub fn union(&self, l: usize, r: usize) -> u64 {
        self.sets[l] | self.sets[r]
    }

    /// Whether there may be no further product.
    pub fn is_full(&self) -> bool {
        self.products.len() == MAX_PRODUCTS || self.variables() == MAX_VARIABLES
    }

    pub fn add_product(&mut self, l: usize, r: usize) {
        self.sets.push(self.union(l, r));
        self.products.push((l, r));
    }

    /// The operands of product k, by its variable number.
    pub fn operands(&self, k: usize) -> (usize, usize) {
        self.products[k - self.choices]
    }

    /// The bytes of part 2; the factor 1 is not said.
    pub fn bytes(&self) -> Vec<u8> {
        let mut bytes = Vec::new();
        if self.factor != 1 {
            bytes.push(0x23);
            bytes.extend(self.factor.to_le_bytes());
        }
        for &(l, r) in &self.products {
            bytes.extend([0x21, l as u8, r as u8]);
        }
        for &(l, r) in &self.splits {
            bytes.extend([0x22, l as u8, r as u8]);
        }
        bytes.push(0x2F);
        bytes
    }
}

pub fn read(register: &Register, bytes: &[u8]) -> Read<Scheme> {
    let mut commands = Commands::new(bytes);
    let mut scheme = Scheme::of_choices(register.choices.len());
    loop {
        let first = commands.at == 0;
        let no_split_yet = scheme.splits.is_empty();
        let command = commands.next(|byte| match byte {
            0x23 if first => Some(2),
            0x21 if no_split_yet => Some(2),
            0x22 => Some(2),
            0x2F => Some(0),
            _ => None,
        })?;
        match command.byte {
            0x23 => {
                scheme.factor = command.u16(0);
                command.refuse(4, scheme.factor == 0 || scheme.factor > MAX_FACTOR)?;
            }
            0x21 => {
                let (l, r) = (command.u8(0) as usize, command.u8(1) as usize);
                let k = scheme.variables();
                command.refuse(3, scheme.is_full())?;
                command.refuse(5, l >= k || r >= k)?;
                command.refuse(6, l >= r)?;
                command.refuse(8, scheme.sets.contains(&scheme.union(l, r)))?;
                scheme.add_product(l, r);
            }
            0x22 => {
                let (l, r) = (command.u8(0) as usize, command.u8(1) as usize);
                let n = scheme.variables();
                command.refuse(3, scheme.splits.len() == register.terms.len())?;
                command.refuse(5, l >= n || r >= n)?;
                command.refuse(6, l > r)?;
                command.refuse(8, scheme.union(l, r) != register.terms[scheme.splits.len()].mask)?;
                scheme.splits.push((l, r));
            }
            _ => {
                command.refuse(3, scheme.splits.len() < register.terms.len())?;
                return Ok((scheme, commands.at));
            }
        }
    }
}

/// Adds s times g, with the coefficients beside the plan, to the table.
pub fn add_function(register: &Register, scheme: &Scheme, plan: u64, s: i64, table: &mut Table) {
    table.add_constant(s * register.base as i64);
    for (term, &(l, r)) in register.terms.iter().zip(&scheme.splits) {
        let coefficient = s * term.beside(plan) as i64;
        if l == r {
            table.add_linear(l, coefficient);
        } else {
            table.add_product(l, r, coefficient);
        }
    }
}

/// The weight P of each product, from the lows, with the factor.
pub fn weights(register: &Register, scheme: &Scheme) -> Vec<i64> {
    let (n, count) = (scheme.choices, scheme.variables());
    // The products that each variable leads down to, itself among them, as a mask over all variables.
    let mut used = vec![0u64; count];
    for k in n..count {
        let (l, r) = scheme.operands(k);
        used[k] = 1 << k | used[l] | used[r];
    }
    let weight = |k: usize| {
        let terms = register.terms.iter().zip(&scheme.splits);
        let using = terms.filter(|(_, &(l, r))| (used[l] | used[r]) & 1 << k != 0);
        scheme.factor as i64 * using.map(|(term, _)| (term.low as i64).abs()).sum::<i64>()
    };
    (n..count).map(weight).collect()
}

/// The table of the penalty form h, which takes the lows.
pub fn penalty(register: &Register, scheme: &Scheme) -> Table {
    let mut table = Table::new(scheme.variables());
    add_function(register, scheme, FEEDS_NONE, 1, &mut table);
    for (k, weight) in (scheme.choices..).zip(weights(register, scheme)) {
        let (l, r) = scheme.operands(k);
        table.add_linear(k, 3 * weight);
        table.add_product(k, l, -2 * weight);
        table.add_product(k, r, -2 * weight);
        table.add_product(l, r, weight);
    }
    table
}
