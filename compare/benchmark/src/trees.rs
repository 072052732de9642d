//! The tree value of an ordinary callable bond beside the published text, at four sizes; the widest tree; the stack.
use crate::entries::timed;
use host::Lent;
use reading::book::Book;
use reading::ordinary;
use reading::treebasedbondpricer::{least_room, Room, Terms};
use std::hint::black_box;
use std::process::{Command, Stdio};
use std::sync::atomic::Ordering;

/// Steps, and how often a timing calls.
const SIZES: [(u32, usize); 7] = [(4, 4000), (10, 2000), (20, 800), (40, 200), (100, 40), (250, 8), (512, 2)];

fn growth(time: f64, before: Option<f64>) -> String {
    before.map_or(String::new(), |before| format!("x {:.1}", time / before))
}

/// Each bond that is measured: what its steps have in common is what may be kept from one to the next.
const BONDS: [(&str, fn(u32) -> Terms); 3] = [
    ("10-year callable", ordinary::bond),
    ("3,652 days, four sigmas", ordinary::four_sigmas),
    ("3,653 days, a time step that binary has not", ordinary::odd_days),
];

pub fn run() {
    for (name, bond) in BONDS {
        sizes(name, bond);
    }
    wide();
}

fn sizes(name: &str, bond: fn(u32) -> Terms) {
    println!("tree value, {name}");
    println!("                                  Gutirapeo                        text, 01's functions             text, platform's functions");
    println!("steps    nodes        ms   ns/node   growth         ms   ns/node   growth  times as fast         ms  times as fast");
    let mut before: [Option<f64>; 2] = [None; 2];
    for (steps, calls) in SIZES {
        let terms = bond(steps);
        let mut lent = Lent::new(least_room(&terms, ordinary::room(2 * steps)).expect("the bond has a tree"));
        let (_, nodes) = host::tree_value(&terms, &mut lent).expect("the bond is accepted");
        let ours = timed(calls, || { let _ = black_box(host::tree_value(black_box(&terms), &mut lent)); });
        let text = || timed((calls / 4).max(1), || { let _ = black_box(published::tree(black_box(&terms))); });
        let theirs = text();
        published::PLATFORM.store(true, Ordering::Relaxed);
        let platform = text();
        published::PLATFORM.store(false, Ordering::Relaxed);
        let each = |time: f64| time * 1e3 / nodes as f64;
        println!(
            "{steps:5} {nodes:8} {:9.3} {:9.1} {:>8}  {:9.3} {:9.1} {:>8} {:14.2}  {:9.3} {:14.2}",
            ours / 1e3,
            each(ours),
            growth(ours, before[0]),
            theirs / 1e3,
            each(theirs),
            growth(theirs, before[1]),
            theirs / ours,
            platform / 1e3,
            platform / ours,
        );
        before = [Some(ours), Some(theirs)];
    }
}

/// Alpha far below 0 drives the nodes apart: each layer is wider than the one before, by a factor.
fn wide() {
    let mut terms = Terms { alpha: -5.0, settings: (366, 512), ..ordinary::bond(512) };
    (terms.leg.days, terms.leg.kinds, terms.leg.amounts) = (vec![365, 365], vec![0, 1], vec![5.0, 100.0]);
    (terms.calls.starts, terms.calls.ends, terms.calls.strikes) = (vec![182], vec![182], vec![100.0]);
    let mut lent = Lent::new(Room { nodes: 3_000_000, probabilities: 4_500_000, first: 20_000, second: 20_000 });
    let (_, nodes) = host::tree_value(&terms, &mut lent).expect("the wide tree is accepted");
    let time = timed(1, || { let _ = black_box(host::tree_value(black_box(&terms), &mut lent)); });
    println!("one year in 512 steps, alpha -5: {nodes} nodes, {:.1} ms, {:.1} ns a node", time / 1e3, time * 1e3 / nodes as f64);
}

/// One call of an entry with the most steps on a thread with a stack of so many bytes.
pub fn on_stack(entry: &str, bytes: usize) {
    let (terms, mut lent) = (ordinary::bond(512), Lent::new(ordinary::room(512)));
    let entry = entry.to_owned();
    let called = std::thread::Builder::new().stack_size(bytes).spawn(move || match entry.as_str() {
        "spread" => host::spread_from_price(&terms, 100.0, &mut lent).0.is_ok(),
        "table" => host::spread_table(&terms, &[0.0], &[0.0], &mut lent).0 == 0,
        "book" => host::book_value(&Book::of(&[terms], &[0]), &mut lent).is_ok(),
        _ => host::tree_value(&terms, &mut lent).is_ok(),
    });
    assert!(called.expect("a thread starts").join().is_ok_and(|accepted| accepted));
}

/// The least stack of a thread on which the most steps go through, to 4 KB: each size is tried in a process of its own.
fn stack(entry: &str) -> usize {
    let fits = |bytes: usize| {
        let program = std::env::current_exe().expect("the program knows its path");
        let run = Command::new(program).args(["--stack", entry, &bytes.to_string()]).stdout(Stdio::null()).stderr(Stdio::null()).status();
        run.is_ok_and(|status| status.success())
    };
    let (mut low, mut high) = (4, 2048);
    assert!(fits(high * 4096), "8 MB of stack are enough");
    while high - low > 1 {
        let middle = (low + high) / 2;
        if fits(middle * 4096) {
            high = middle;
        } else {
            low = middle;
        }
    }
    high * 4
}

pub fn stacks() {
    let [value, spread, table, book] = ["tree", "spread", "table", "book"].map(stack);
    println!("512 steps need a thread with {value} KB of stack for the tree value, {spread} KB for the spread from price, {table} KB for a table, {book} KB for a book");
}
