//! The builder of a scheme: 000 Algorithm 2.

use crate::register::Register;
use crate::scheme::Scheme;
use crate::wire::Fault;

pub fn build(register: &Register) -> Result<Scheme, Fault> {
    let mut scheme = Scheme::of_choices(register.choices.len());
    for term in &register.terms {
        let mut list: Vec<usize> = (0..register.choices.len()).filter(|i| term.mask & 1 << i != 0).collect();
        while list.len() > 2 {
            let mut next = Vec::new();
            for members in list.chunks(2) {
                next.push(match *members {
                    [a, b] => joined(&mut scheme, a, b).ok_or(Fault { number: 10, position: term.position })?,
                    _ => members[0],
                });
            }
            list = next;
        }
        let (a, b) = (list[0], list[list.len() - 1]);
        scheme.splits.push((a.min(b), a.max(b)));
    }
    Ok(scheme)
}

/// The variable whose set is the union of those of a and b, made as the next product if none has it; `None` if there may be no
/// further product.
fn joined(scheme: &mut Scheme, a: usize, b: usize) -> Option<usize> {
    let union = scheme.union(a, b);
    if let Some(v) = scheme.sets.iter().position(|&set| set == union) {
        return Some(v);
    }
    if scheme.is_full() {
        return None;
    }
    scheme.add_product(a.min(b), a.max(b));
    Some(scheme.variables() - 1)
}
