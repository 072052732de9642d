//! The call list of the most notices: 64 series of four versions each, all of them sets.
use crate::entries::timed;
use reading::notices::Notices;
use std::hint::black_box;

pub fn run() {
    let mut n = Notices::default();
    for i in 0..256 {
        n.series.push(1 + i * 37 % 64);
        n.versions.push(1 + i / 64);
        n.actions.push(0);
        n.calls.starts.push(1_000 + i);
        n.calls.ends.push(2_000 + i);
        n.calls.strikes.push(100.0);
    }
    assert!(host::call_list(&n).is_ok_and(|calls| calls.starts.len() == 64), "64 series stand");
    println!("call list of 256 notices: {:.1} us", timed(200, || { let _ = black_box(host::call_list(black_box(&n))); }));
}
