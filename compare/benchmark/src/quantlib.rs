//! QuantLib's tree engine on the ordinary bond, in the same run, where its headers and a C++ compiler are installed.
use crate::entries::timed;
use host::Lent;
use reading::ordinary;
use reading::treebasedbondpricer::Terms;
use std::hint::black_box;
use std::path::{Path, PathBuf};
use std::process::Command;

/// Steps, and how often a timing calls our value, our spread, QuantLib's value and its spread.
const SIZES: [(u32, usize, usize, usize, usize); 4] = [(40, 200, 8, 50, 4), (100, 40, 4, 10, 1), (250, 8, 1, 2, 1), (512, 2, 1, 1, 1)];

/// The value and the milliseconds of one value and of one spread.
struct Engine {
    value: f64,
    valued: f64,
    solved: f64,
}

/// The program over QuantLib, made anew beside this one.
fn program() -> Option<PathBuf> {
    if !Path::new("/usr/include/ql/quantlib.hpp").exists() {
        return None;
    }
    let source = Path::new(env!("CARGO_MANIFEST_DIR")).join("quantlib/engine.cpp");
    let made = std::env::current_exe().ok()?.with_file_name("quantlib-engine");
    let built = Command::new("g++").args(["-O2", "-std=c++17", "-o"]).arg(&made).arg(source).arg("-lQuantLib").status();
    built.is_ok_and(|status| status.success()).then_some(made)
}

fn engine(program: &Path, steps: u32, values: usize, spreads: usize) -> Option<Engine> {
    let words = [steps as usize, values, spreads].map(|word| word.to_string());
    let said = Command::new(program).args(words).env("OMP_NUM_THREADS", "1").output().ok()?;
    let said = String::from_utf8(said.stdout).ok()?;
    let mut numbers = said.split_whitespace().filter_map(|word| word.parse().ok());
    Some(Engine { value: numbers.next()?, valued: numbers.next()?, solved: numbers.next()? })
}

pub fn run() {
    let Some(program) = program() else {
        println!("QuantLib's headers (libquantlib0-dev) or g++ are missing: its engine is not timed");
        return;
    };
    println!("beside QuantLib                tree value                              spread from price");
    println!("steps      value, QuantLib's         ms, QuantLib's  times as fast         ms, QuantLib's  times as fast");
    for (steps, values, solves, their_values, their_solves) in SIZES {
        let terms = ordinary::bond(steps);
        let mut lent = Lent::new(ordinary::room(steps));
        let (value, _) = host::tree_value(&terms, &mut lent).expect("the ordinary bond is accepted");
        let quoted = Terms { spread: 0.0, ..terms.clone() };
        let (mut valued, mut solved) = (f64::INFINITY, f64::INFINITY);
        let mut theirs = Engine { value: f64::NAN, valued: f64::INFINITY, solved: f64::INFINITY };
        for _ in 0..2 {
            valued = valued.min(timed(values, || { let _ = black_box(host::tree_value(black_box(&terms), &mut lent)); }) / 1e3);
            solved = solved.min(timed(solves, || { let _ = black_box(host::spread_from_price(black_box(&quoted), value - 1.0, &mut lent)); }) / 1e3);
            let Some(now) = engine(&program, steps, their_values, their_solves) else {
                println!("QuantLib's engine could not be run");
                return;
            };
            theirs = Engine { value: now.value, valued: theirs.valued.min(now.valued), solved: theirs.solved.min(now.solved) };
        }
        println!(
            "{steps:5} {value:10.4} {:11.4} {valued:10.3} {:11.3} {:14.2} {solved:10.2} {:11.2} {:14.2}",
            theirs.value,
            theirs.valued,
            theirs.valued / valued,
            theirs.solved,
            theirs.solved / solved,
        );
    }
}
