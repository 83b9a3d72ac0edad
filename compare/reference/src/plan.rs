//! Part 4, the plan, and its cost.

use crate::register::Register;
use crate::wire::{Commands, Read};

/// The plan that feeds no choice. Every term names one, so beside this plan each has its low.
pub const FEEDS_NONE: u64 = 0;

pub fn read(register: &Register, bytes: &[u8]) -> Read<u64> {
    let mut commands = Commands::new(bytes);
    let command = commands.next(|byte| match byte {
        0x40 => Some(4),
        0x41 => Some(8),
        _ => None,
    })?;
    let plan = if command.byte == 0x41 { command.u64(0) } else { command.u32(0) as u64 };
    command.refuse(5, plan & !register.all() != 0)?;
    command.refuse(15, !register.fits(plan))?;
    Ok((plan, commands.at))
}

/// The cost, with the high of each term that the plan feeds.
pub fn cost(register: &Register, plan: u64) -> i64 {
    let terms = register.terms.iter().filter(|term| term.fed(plan));
    register.base as i64 + terms.map(|term| term.high as i64).sum::<i64>()
}
