//! What a day count costs: the tree value of the ordinary callable bond, settled in 2026 under a curve of 256 pillars.
use crate::entries::timed;
use host::Lent;
use reading::ordinary;
use reading::terms::Pillars;
use reading::treebasedbondpricer::Terms;
use std::hint::black_box;

/// Steps, and how often a timing calls.
const SIZES: [(u32, usize); 2] = [(40, 100), (512, 1)];
/// The timings of each code, in turn; the best counts.
const TURNS: usize = 8;
/// 30 January 2026.
const SETTLEMENT: u32 = 46_050;

fn bond(steps: u32, code: u32) -> Terms {
    let mut t = Terms { settlement: SETTLEMENT, code, ..ordinary::bond(steps) };
    let later = |days: &mut Vec<u32>| days.iter_mut().for_each(|day| *day += SETTLEMENT);
    later(&mut t.leg.days);
    later(&mut t.calls.starts);
    later(&mut t.calls.ends);
    let days: Vec<u32> = (0..256).map(|i| SETTLEMENT + i * 3_660 / 255).collect();
    let factors = days.iter().map(|&day| (-0.04 * f64::from(day - SETTLEMENT) / 365.0).exp()).collect();
    t.pillars = Pillars { days, factors };
    t
}

pub fn run() {
    println!("tree value, 256 pillars    Actual/365    Actual/360       30E/360    to Actual/365: Actual/360, 30E/360");
    for (steps, calls) in SIZES {
        let mut lent = Lent::new(ordinary::room(steps));
        let mut best = [f64::INFINITY; 3];
        for _ in 0..TURNS {
            for code in 0..3 {
                let terms = bond(steps, code);
                assert!(host::tree_value(&terms, &mut lent).is_ok(), "the bond is accepted under every code");
                let time = timed(calls, || { let _ = black_box(host::tree_value(black_box(&terms), &mut lent)); });
                let best = &mut best[code as usize];
                *best = best.min(time);
            }
        }
        let [days, money, thirties] = best;
        println!("{steps:5} steps {days:22.1} us {money:10.1} us {thirties:10.1} us {:32.3} {:8.3}", money / days, thirties / days);
    }
}
