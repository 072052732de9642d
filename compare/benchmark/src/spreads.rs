//! Spread from price for the ordinary callable bond, as a multiple of one tree value.
use crate::entries::timed;
use host::Lent;
use reading::ordinary;
use reading::treebasedbondpricer::Terms;
use std::hint::black_box;

/// Steps, and how often a timing calls the solver and the tree value.
const SIZES: [(u32, usize, usize); 3] = [(100, 4, 40), (250, 1, 8), (512, 1, 4)];

/// The spread to be found again.
const SPREAD: f64 = 0.0123;

pub fn run() {
    println!("spread from price, 10-year callable, quoted at its value at a spread of {SPREAD}");
    println!("steps   tree value ms   solve ms   multiple   spreads tried   a try, in tree values");
    for (steps, solves, values) in SIZES {
        let terms = Terms { spread: SPREAD, ..ordinary::bond(steps) };
        let mut lent = Lent::new(ordinary::room(steps));
        let (target, _) = host::tree_value(&terms, &mut lent).expect("the ordinary bond is accepted");
        let (found, tried) = host::spread_from_price(&terms, target, &mut lent);
        assert!(found.is_ok_and(|spread| (spread - SPREAD).abs() < 1e-12), "the spread is found again");
        let value = timed(values, || { let _ = black_box(host::tree_value(black_box(&terms), &mut lent)); });
        let solve = timed(solves, || { let _ = black_box(host::spread_from_price(black_box(&terms), target, &mut lent)); });
        let multiple = solve / value;
        println!("{steps:5} {:15.3} {:10.2} {multiple:10.1} {tried:15} {:23.2}", value / 1e3, solve / 1e3, multiple / f64::from(tried));
    }
}
