//! What costs known within ranges must come to, on random registers of few choices, against the costs of all plans that fit;
//! and what holds of accepted jobs at all, on registers of more than 32 choices, against those of some plans that fit.

#[allow(dead_code)]
#[path = "../../src/generate.rs"]
mod generate;
#[allow(dead_code)]
#[path = "../../src/random.rs"]
mod random;

use generate::Size;
use random::Random;
use reference::register::{Register, Term};
use reference::table::NUMBERS;

/// The plans that fit, and what each costs where a term has the coefficient that is given for it.
fn costs<'a>(register: &'a Register, coefficient: impl Fn(&Term) -> i32 + 'a) -> impl Iterator<Item = (u64, i64)> + 'a {
    let fits = |&plan: &u64| register.rows.iter().all(|row| row.sum_of(plan) == row.total);
    (0..=register.all()).filter(fits).map(move |plan| {
        let fed = register.terms.iter().filter(|term| term.mask & !plan == 0);
        (plan, register.base as i64 + fed.map(|term| coefficient(term) as i64).sum::<i64>())
    })
}

/// The coefficient beside a plan, said again.
fn beside(term: &Term, plan: u64) -> i32 {
    if term.mask & !plan == 0 {
        term.high
    } else {
        term.low
    }
}

/// A plan of few choices by either command.
fn plan_bytes(random: &mut Random, plan: u64) -> Vec<u8> {
    if random.chance(50) {
        [&[0x41][..], &plan.to_le_bytes()].concat()
    } else {
        [&[0x40][..], &(plan as u32).to_le_bytes()].concat()
    }
}

/// Whether the plan costs at most any other that fits, for coefficients at the ends of their ranges and between them.
fn cheapest_throughout(random: &mut Random, register: &Register, plan: u64) -> bool {
    (0..20).all(|_| {
        let at_ends = random.chance(50);
        let values: Vec<i32> = register
            .terms
            .iter()
            .map(|term| {
                let any = random.within(term.low as i64, term.high as i64) as i32;
                if at_ends {
                    random.pick(&[term.low, term.high])
                } else {
                    any
                }
            })
            .collect();
        let value = |term: &Term| values[register.terms.iter().position(|other| other == term).unwrap()];
        let all: Vec<(u64, i64)> = costs(register, value).collect();
        let own = all.iter().find(|(other, _)| *other == plan).expect("a plan that fits").1;
        all.iter().all(|(_, cost)| own <= *cost)
    })
}

#[test]
fn bounds() {
    let mut random = Random(9);
    let mut table = vec![0; NUMBERS];
    // Certificates of ours, others that are accepted, and how many of both have the gap 0.
    let (mut ours, mut others, mut exact) = (0, 0, 0);
    for _ in 0..20_000 {
        let whole = generate::whole(&mut random, Size::Small);
        let [part1, part2, part3, _] = whole.parts.each_ref().map(|part| part.concat());
        let Ok(register) = reference::register(&part1) else { continue };
        if !register.has_range() || reference::scheme(&part1, &part2).is_err() {
            continue;
        }
        for (plan, cost) in costs(&register, |term| term.high) {
            let part4 = plan_bytes(&mut random, plan);
            assert_eq!(reference::cost(&part1, &part4), Ok(cost));
            let mut buffer = [0; 1_294];
            let count = reference::plain(&part1, &part2, &part4, &mut buffer).expect("a certificate");
            let own = reference::check(&part1, &part2, &buffer[..count], &part4, &mut table).expect("accepted beside its plan");
            let other = reference::check(&part1, &part2, &part3, &part4, &mut table).ok();
            let least = costs(&register, |term| beside(term, plan)).map(|(_, cost)| cost).min().expect("a plan that fits");
            for bound in [Some(own), other].into_iter().flatten() {
                assert!(bound <= least && least <= cost, "{register:?} beside {plan}: {bound} {least} {cost}");
                if bound == cost {
                    assert!(cheapest_throughout(&mut random, &register, plan), "{register:?} beside {plan}");
                    exact += 1;
                }
            }
            ours += 1;
            others += other.is_some() as u32;
        }
    }
    assert!(ours > 10_000 && others > 5_000 && exact > 1_000, "{ours} of ours, {others} others, {exact} with the gap 0");
    println!("certificates beside a plan: {} agree", ours + others);
}

/// Plans that fit, of a register of many choices: the job's own with a few choices more or less, and any.
fn some_plans(random: &mut Random, register: &Register, own: u64) -> Vec<u64> {
    let near = (0..100).map(|_| (0..1 + random.below(4)).fold(own, |plan, _| plan ^ 1 << random.below(register.choices.len())));
    let mut plans: Vec<u64> = near.collect();
    plans.extend((0..100).map(|_| random.next() & register.all()));
    plans.retain(|&plan| register.rows.iter().all(|row| row.sum_of(plan) == row.total));
    plans
}

#[test]
fn bounds_of_many_choices() {
    let mut random = Random(10);
    let mut table = vec![0; NUMBERS];
    let (mut accepted, mut ranged, mut with_rows, mut plans) = (0, 0, 0, 0);
    for _ in 0..20_000 {
        let whole = generate::whole(&mut random, Size::Wide);
        let [part1, part2, part3, part4] = whole.parts.each_ref().map(|part| part.concat());
        let Ok(register) = reference::register(&part1) else { continue };
        let Ok(bound) = reference::check(&part1, &part2, &part3, &part4, &mut table) else { continue };
        let Ok((own, _)) = reference::plan::read(&register, &part4) else { continue };
        for plan in some_plans(&mut random, &register, own) {
            let fed = register.terms.iter().filter(|term| term.mask & !plan == 0);
            let cost = register.base as i64 + fed.map(|term| beside(term, own) as i64).sum::<i64>();
            assert!(bound <= cost, "{register:?} beside {own}: {bound} {plan} {cost}");
            plans += 1;
        }
        accepted += 1;
        ranged += register.has_range() as u32;
        with_rows += !register.rows.is_empty() as u32;
    }
    assert!(
        accepted > 5_000 && ranged > 1_000 && with_rows > 1_000 && plans > 100_000,
        "{accepted} {ranged} {with_rows} {plans}"
    );
    println!("certificates of many choices: {accepted} agree");
}
