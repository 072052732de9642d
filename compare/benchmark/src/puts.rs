//! What puts cost: the tree value of the ordinary callable bond, and with a put at 95 on each of its call days or from settlement to
//! maturity.
use crate::entries::timed;
use host::Lent;
use reading::ordinary;
use reading::terms::Calls;
use reading::treebasedbondpricer::Terms;
use std::hint::black_box;

/// Steps, and how often a timing calls.
const SIZES: [(u32, usize); 2] = [(40, 100), (512, 1)];
/// The timings of each list, in turn; the best counts.
const TURNS: usize = 8;

fn bonds(steps: u32) -> [Terms; 3] {
    let none = ordinary::bond(steps);
    let days = Calls { strikes: vec![95.0; none.calls.starts.len()], ..none.calls.clone() };
    let window = Calls { starts: vec![0], ends: vec![3_649], strikes: vec![95.0] };
    [none.clone(), Terms { puts: days, ..none.clone() }, Terms { puts: window, ..none }]
}

pub fn run() {
    println!("tree value                  no puts        8 days        window    to no puts: 8 days, window");
    for (steps, calls) in SIZES {
        let mut lent = Lent::new(ordinary::room(steps));
        let mut best = [f64::INFINITY; 3];
        let bonds = bonds(steps);
        for _ in 0..TURNS {
            for (terms, best) in bonds.iter().zip(&mut best) {
                assert!(host::tree_value(terms, &mut lent).is_ok(), "the bond is accepted with and without puts");
                *best = best.min(timed(calls, || { let _ = black_box(host::tree_value(black_box(terms), &mut lent)); }));
            }
        }
        let [none, days, window] = best;
        println!("{steps:5} steps {none:20.1} us {days:10.1} us {window:10.1} us {:24.3} {:8.3}", days / none, window / none);
    }
}
