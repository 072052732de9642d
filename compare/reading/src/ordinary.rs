//! An ordinary callable bond, for measuring.
use crate::elementary::exp_at;
use crate::terms::{Calls, Leg, Pillars, Sigma};
use crate::treebasedbondpricer::{Room, Terms};
use alloc::vec;
use alloc::vec::Vec;

/// 10 years at 5%, paid twice a year; called at 100 each year from year 2 on; rates of 4%.
pub fn bond(steps: u32) -> Terms {
    let mut leg = Leg::default();
    for half in 1..=20 {
        leg.days.push(half * 365 / 2);
        leg.kinds.push(0);
        leg.amounts.push(2.5);
    }
    leg.days.push(3650);
    leg.kinds.push(1);
    leg.amounts.push(100.0);
    let years: Vec<u32> = (2..10).map(|year| 365 * year).collect();
    Terms {
        settlement: 0,
        code: 0,
        leg,
        units: 100.0,
        calls: Calls { starts: years.clone(), ends: years, strikes: vec![100.0; 8] },
        puts: Calls::default(),
        settings: (366, steps),
        alpha: 0.05,
        sigma: Sigma { times: vec![0.0], sigmas: vec![0.01] },
        spread: 0.0,
        pillars: Pillars {
            days: (0..=10).map(|year| 365 * year).collect(),
            factors: (0..=10).filter_map(|year| exp_at(-0.04 * f64::from(year), 0).ok()).collect(),
        },
    }
}

/// The ordinary bond, its last payments on another day.
fn until(steps: u32, day: u32) -> Terms {
    let mut terms = bond(steps);
    terms.leg.days.iter_mut().rev().take(2).for_each(|last| *last = day);
    *terms.pillars.days.last_mut().expect("the curve has pillars") = day;
    terms
}

/// 3,652 days, and a sigma that changes after one, three and six years.
pub fn four_sigmas(steps: u32) -> Terms {
    let sigma = Sigma { times: vec![1.0, 3.0, 6.0, 10.0], sigmas: vec![0.01, 0.012, 0.009, 0.011] };
    Terms { sigma, ..until(steps, 3_652) }
}

/// 3,653 days: no number of steps divides them into times that a double holds exactly.
pub fn odd_days(steps: u32) -> Terms {
    until(steps, 3_653)
}

/// Room for any tree in which layer k has at most 2k + 1 nodes.
pub fn room(steps: u32) -> Room {
    let n = steps as usize;
    let all = (n + 1) * (n + 1);
    Room { nodes: 2 * all, probabilities: 3 * all, first: 2 * n + 1, second: 2 * n + 1 }
}
