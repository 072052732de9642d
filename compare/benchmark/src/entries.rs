//! The bond's entries beside the published text with document 01's functions.
use reading::terms::{Calls, Leg};
use std::hint::black_box;
use std::time::Instant;

/// The best of a few timings of one call, in microseconds.
pub fn timed(calls: usize, mut call: impl FnMut()) -> f64 {
    let mut best = f64::INFINITY;
    for _ in 0..5 {
        let start = Instant::now();
        for _ in 0..calls {
            call();
        }
        best = best.min(start.elapsed().as_nanos() as f64 / 1e3 / calls as f64);
    }
    best
}

fn line(name: &str, ours: f64, theirs: f64) {
    println!("{name:40} {ours:10.1} us {theirs:12.1} us {:7.3}", ours / theirs);
}

/// Flows every `period` days, a redemption with the last.
fn flows(count: u32, period: u32, coupon: f64) -> Leg {
    let mut leg = Leg::default();
    for i in 1..=count {
        leg.days.push(i * period);
        leg.kinds.push(0);
        leg.amounts.push(coupon);
    }
    leg.days.push(count * period);
    leg.kinds.push(1);
    leg.amounts.push(100.0);
    leg
}

/// Grid and yields beside the published text.
pub fn yields() {
    println!("entry                                     Gutirapeo    published text   ratio");
    println!("with document 01's functions:");
    measured();
    println!("with the platform's functions:");
    published::PLATFORM.store(true, std::sync::atomic::Ordering::Relaxed);
    measured();
    published::PLATFORM.store(false, std::sync::atomic::Ordering::Relaxed);
}

pub fn run() {
    if !published::AVAILABLE {
        println!("the published source is not beside the repository: the entries are not measured");
        return;
    }
    yields();
    crate::trees::run();
    crate::sizing::run();
    crate::spreads::run();
    crate::tables::run();
    crate::trees::stacks();
}

fn measured() {
    let mut leg = flows(255, 40, 2.0);
    for kind in leg.kinds.iter_mut().step_by(4) {
        *kind = 1;
    }
    let mut calls = Calls::default();
    for i in 0..64 {
        calls.starts.push(100 * i);
        calls.ends.push(100 * i + 4000);
        calls.strikes.push(100.0 + f64::from(i));
    }
    line(
        "grid, 512 steps, 64 windows, 256 flows",
        timed(50, || { let _ = black_box(host::grid(0, 0, &leg, 100.0, &calls, &Calls::default(), (366, 512))); }),
        timed(1, || { let _ = black_box(published::grid(0, 0, &leg, 100.0, &calls, (366, 512))); }),
    );
    let leg = flows(60, 182, 2.5);
    line(
        "yield from price, 60 semi-annual flows",
        timed(20, || { let _ = black_box(host::yield_from_price(0, 0, &leg, 1, 2, 97.25)); }),
        timed(20, || { let _ = black_box(published::yield_of(0, 0, &leg, 1, 2, 97.25)); }),
    );
    line(
        "price from yield, 60 semi-annual flows",
        timed(500, || { let _ = black_box(host::price_from_yield(0, 0, &leg, 1, 2, 0.04)); }),
        timed(500, || { let _ = black_box(published::price(0, 0, &leg, 1, 2, 0.04)); }),
    );
}
