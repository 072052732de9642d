//! A full spread by sigma table of the ordinary callable bond, beside the single calls of its cells.
use crate::entries::timed;
use host::Lent;
use reading::ordinary;
use reading::table::single;
use reading::treebasedbondpricer::Terms;
use std::hint::black_box;

/// The most steps, rows and columns.
const STEPS: u32 = 512;

pub fn run() {
    let bond = ordinary::bond(STEPS);
    let spreads: Vec<f64> = (0..16).map(|j| f64::from(j) * 0.002).collect();
    let shifts: Vec<f64> = (0..16).map(|i| f64::from(i) * 0.0005).collect();
    let mut lent = Lent::new(ordinary::room(STEPS));
    let cells: Vec<Terms> = shifts.iter().flat_map(|&shift| spreads.iter().map(move |&spread| (shift, spread))).map(|(shift, spread)| single(&bond, shift, spread)).collect();
    let table = timed(1, || { let _ = black_box(host::spread_table(black_box(&bond), &spreads, &shifts, &mut lent)); });
    let alone = timed(1, || cells.iter().for_each(|terms| { let _ = black_box(host::tree_value(black_box(terms), &mut lent)); }));
    println!("spread by sigma table, 16 by 16 cells at {STEPS} steps: {:.1} ms, {} single calls {:.1} ms, ratio {:.3}", table / 1e3, cells.len(), alone / 1e3, table / alone);
}
