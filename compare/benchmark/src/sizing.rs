//! Sizing the ordinary callable bond and a wide tree, beside the tree value.
use crate::entries::timed;
use host::Lent;
use reading::ordinary;
use reading::treebasedbondpricer::{Room, Terms};
use std::hint::black_box;

/// Steps, and how often a timing calls.
const SIZES: [(u32, usize); 7] = [(4, 4000), (10, 2000), (20, 800), (40, 400), (100, 80), (250, 16), (512, 4)];

fn line(name: &str, terms: &Terms, places: usize, calls: usize) {
    let mut slice = Lent::new(Room { nodes: places, probabilities: 0, first: 0, second: 0 });
    let sizes = host::sizes(terms, &mut slice).expect("the bond is sized");
    let mut lent = Lent::new(sizes.room());
    let (_, nodes) = host::tree_value(terms, &mut lent).expect("what is sized is valued");
    let value = timed(calls, || { let _ = black_box(host::tree_value(black_box(terms), &mut lent)); });
    let sizing = timed(calls, || { let _ = black_box(host::sizes(black_box(terms), &mut slice)); });
    println!("{name:20} {nodes:8} {:10.3} {:10.3} {:10.1} {:8.3}", value / 1e3, sizing / 1e3, sizing * 1e3 / nodes as f64, sizing / value);
}

pub fn run() {
    println!("sizing                  nodes   value ms  sizing ms    ns/node    ratio");
    for (steps, calls) in SIZES {
        line(&format!("{steps} steps"), &ordinary::bond(steps), 4 * steps as usize, calls);
    }
    let mut terms = Terms { alpha: -5.0, settings: (366, 512), ..ordinary::bond(512) };
    (terms.leg.days, terms.leg.kinds, terms.leg.amounts) = (vec![365, 365], vec![0, 1], vec![5.0, 100.0]);
    (terms.calls.starts, terms.calls.ends, terms.calls.strikes) = (vec![182], vec![182], vec![100.0]);
    line("512 steps, alpha -5", &terms, 40_000, 1);
}
