//! A line of the closing sheet beside the tree value that it prints.
use crate::entries::timed;
use host::Lent;
use reading::ordinary;
use std::hint::black_box;

pub fn run() {
    for steps in [1, 40] {
        let (terms, room) = (ordinary::bond(steps), ordinary::room(steps));
        let mut lent = Lent::new(room);
        assert_eq!(host::closing_line(1, &terms, &mut lent).0, 0, "a line with a value");
        let value = timed(200, || { let _ = black_box(host::tree_value(black_box(&terms), &mut lent)); });
        let line = timed(200, || { let _ = black_box(host::closing_line(1, black_box(&terms), &mut lent)); });
        println!("closing line at {steps} steps: {line:.2} us, the value alone {value:.2} us");
    }
}
