//! Nanoseconds per call of the proved functions beside Rust code of the same rules, in one run.
mod books;
mod daycounts;
mod entries;
mod notices;
mod puts;
mod quantlib;
mod sheet;
mod sizing;
mod spreads;
mod tables;
mod trees;

use reading::{elementary as reading01, Answer};
use std::hint::black_box;
use std::time::Instant;

const ARGUMENTS: usize = 1024;
const PASSES: usize = 400;
const REPEATS: usize = 7;

/// The best of a few timings, in nanoseconds per call.
fn timed(mut call: impl FnMut(usize) -> Answer) -> f64 {
    let mut best = f64::INFINITY;
    for _ in 0..REPEATS {
        let start = Instant::now();
        for _ in 0..PASSES {
            for i in 0..ARGUMENTS {
                let _ = black_box(call(black_box(i)));
            }
        }
        let each = start.elapsed().as_nanos() as f64 / (PASSES * ARGUMENTS) as f64;
        best = best.min(each);
    }
    best
}

fn line(name: &str, ours: f64, theirs: f64) {
    println!("{name:9} {ours:8.1} ns {theirs:8.1} ns {:6.2}", ours / theirs);
}

/// Doubles spread evenly over a range.
fn spread(low: f64, high: f64) -> Vec<f64> {
    (0..ARGUMENTS)
        .map(|i| low + (high - low) * ((i * 389) % ARGUMENTS) as f64 / ARGUMENTS as f64 + 1e-3)
        .collect()
}

type One = fn(f64) -> Answer;
type Two = fn(f64, f64) -> Answer;

fn fused(a: f64, b: f64, c: f64) -> Answer {
    if !(a.is_finite() && b.is_finite() && c.is_finite()) {
        return reading01::refused(4, 0);
    }
    reading01::tested(a.mul_add(b, c), 0)
}

fn root(x: f64) -> Answer {
    if !x.is_finite() {
        return reading01::refused(4, 0);
    }
    if x < 0.0 {
        return reading01::refused(26, 0);
    }
    Ok(x.sqrt())
}

fn main() {
    let words: Vec<String> = std::env::args().collect();
    if words[1..] == ["--sizing"] {
        return sizing::run();
    }
    if words[1..] == ["--table"] {
        return tables::run();
    }
    if words[1..] == ["--books"] {
        return books::run();
    }
    if words[1..] == ["--yields"] {
        return entries::yields();
    }
    if words[1..] == ["--trees"] {
        trees::run();
        return quantlib::run();
    }
    if let [_, word, entry, bytes] = &words[..] {
        assert_eq!(word, "--stack");
        return trees::on_stack(entry, bytes.parse().expect("--stack takes an entry and a number of bytes"));
    }
    println!("function   Gutirapeo         Rust  ratio");
    let ones: [(&str, One, One, f64, f64); 6] = [
        ("sqrt", host::sqrt, root, 0.0, 1e3),
        ("round", host::round, reading01::round, -1e3, 1e3),
        ("ceil", host::ceil, reading01::ceil, -1e3, 1e3),
        ("exp", host::exp, reading01::exp, -20.0, 20.0),
        ("exp_m1", host::exp_m1, reading01::exp_m1, -1.0, 1.0),
        ("ln", host::ln, reading01::ln, 1e-3, 50.0),
    ];
    for (name, ours, theirs, low, high) in ones {
        let x = spread(low, high);
        line(name, timed(|i| ours(x[i])), timed(|i| theirs(x[i])));
    }
    let twos: [(&str, Two, Two); 4] = [
        ("max", host::max, reading01::max),
        ("min", host::min, reading01::min),
        ("powf", host::powf, reading01::powf),
        ("midpoint", host::midpoint, reading01::midpoint),
    ];
    let (a, b) = (spread(0.5, 3.0), spread(-8.0, 8.0));
    for (name, ours, theirs) in twos {
        line(name, timed(|i| ours(a[i], b[i])), timed(|i| theirs(a[i], b[i])));
    }
    let c = spread(-20.0, 20.0);
    line("mul_add", timed(|i| host::mul_add(a[i], b[i], c[i])), timed(|i| fused(a[i], b[i], c[i])));
    println!("sqrt and mul_add stand beside the hardware's root and the C library's fma; the others beside the same rules in Rust.");
    notices::run();
    sheet::run();
    daycounts::run();
    puts::run();
    books::run();
    entries::run();
    quantlib::run();
}
