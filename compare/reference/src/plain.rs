//! The certificate of our own.

use crate::certificate::{Certificate, Multiplier};
use crate::register::Register;
use crate::scheme::{add_function, Scheme};
use crate::table::Table;

/// The certificate for the coefficients beside the plan.
pub fn certificate(register: &Register, scheme: &Scheme, plan: u64) -> Certificate {
    let count = scheme.variables();
    let mut g = Table::new(count);
    add_function(register, scheme, plan, 1, &mut g);
    let mut multipliers = Vec::new();
    let mut add = |kind, i, m| {
        if m != 0 {
            multipliers.push(Multiplier { kind, names: [i, 0, 0, 0], m });
        }
    };
    let halves: Vec<i64> = (0..count)
        .map(|i| {
            let sum: i64 = (0..count).filter(|&j| j != i).map(|j| g.at(i + 1, j + 1).abs()).sum();
            (sum + 1) / 2
        })
        .collect();
    for i in 0..count {
        add(0x31, i, halves[i]);
    }
    let mut target = register.base as i64;
    for i in 0..count {
        let left = g.at(0, i + 1) - halves[i];
        if left > 0 {
            add(0x38, i, left);
        } else {
            add(0x39, i, -left);
            target += left;
        }
    }
    Certificate { scale: 1, target, multipliers, squares: Vec::new(), end: 0 }
}
