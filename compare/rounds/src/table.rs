//! Spread by sigma tables against the second reading (number, place, length, page, lent slices), and every cell against the
//! tree value's own call; of each, a table of a call list and of a put list made from its own.
use crate::calllists::{made_from, Side};
use crate::random::Random;
use crate::tally::{Found, Tally};
use crate::terms::{self, pick};
use crate::tree::{self, tree_terms};
use host::Lent;
use reading::table::{outside, single, table, text, Page};
use reading::treebasedbondpricer::{Room, Terms};

/// What the cells of a run must show, 0 for a value.
const SHOWN: [u32; 24] = [0, 1, 2, 3, 4, 5, 6, 7, 8, 20, 21, 22, 23, 25, 26, 27, 32, 33, 34, 35, 37, 38, 44, 46];

/// 1 to 16, or a count that is 45.
fn count(random: &mut Random) -> usize {
    match random.below(24) {
        0 => pick(random, &[0, 17, 40]),
        1 => 16,
        _ => 1 + random.below(5) as usize,
    }
}

pub fn spreads(random: &mut Random) -> Vec<f64> {
    (0..count(random))
        .map(|_| match random.below(24) {
            0 => pick(random, &[f64::NAN, f64::INFINITY, 1.5, -1.0 - f64::EPSILON, 1.0, -1.0, -0.0]),
            _ => random.between(-0.05, 0.1),
        })
        .collect()
}

pub fn shifts(random: &mut Random) -> Vec<f64> {
    (0..count(random))
        .map(|_| match random.below(12) {
            0 => pick(random, &[f64::NAN, f64::NEG_INFINITY, -5.0, 20.0, -1e-3, 0.0, -0.0]),
            _ => random.between(-0.002, 0.02),
        })
        .collect()
}

/// Terms for a table: some damaged, some with sigmas out of their range or more than a call takes.
pub fn table_terms(random: &mut Random) -> Terms {
    let mut t = tree_terms(random);
    if random.below(3) == 0 {
        terms::damage(random, &mut t);
    }
    match random.below(24) {
        0 => t.sigma.sigmas.iter_mut().for_each(|sigma| *sigma += 5.0),
        1 => t.sigma.sigmas.resize(60 + random.below(10) as usize, 0.01),
        2 => t.sigma.sigmas.clear(),
        3 => t.leg.amounts.iter_mut().for_each(|amount| *amount *= 1e10),
        _ => {}
    }
    t
}

fn cell(page: &Page, columns: usize, row: usize, column: usize) -> &str {
    let start = row * (16 * columns + 1) + 16 * column;
    std::str::from_utf8(&page.3[start..start + 16]).unwrap()
}

/// The number that a cell shows, 0 for a value.
fn shown(cell: &str) -> u32 {
    cell.trim().strip_prefix('#').map_or(0, |number| number.parse().unwrap())
}

fn cents(cell: &str) -> f64 {
    cell.trim().replace('.', "").parse::<i64>().unwrap() as f64
}

/// Each cell against its own call.
fn cells(tally: &mut Tally, page: &Page, t: &Terms, spreads: &[f64], shifts: &[f64], room: Room) {
    for (i, &shift) in shifts.iter().enumerate() {
        for (j, &spread) in spreads.iter().enumerate() {
            let ours = cell(page, spreads.len(), i, j);
            let alone = single(t, shift, spread);
            let theirs = if outside(&alone) { format!("{:>16}", "#46") } else { text(&host::tree_value(&alone, &mut Lent::new(room))) };
            tally.case(shown(ours), ours == theirs, || format!("{t:?} {shift} {spread} {room:?} shows {ours:?}, alone {theirs:?}"));
        }
    }
}

fn compare(tally: &mut Tally, t: &Terms, spreads: &[f64], shifts: &[f64], room: Room) -> Page {
    let mut lent = Lent::new(room);
    let ours = host::spread_table(t, spreads, shifts, &mut lent);
    let theirs = table(t, spreads, shifts, room);
    let left = if ours.0 == 45 { lent.untouched() } else { lent.zeroed() };
    tally.case(ours.0, left && ours == theirs, || {
        let text = |page: &Page| String::from_utf8_lossy(&page.3[..page.2 as usize]).into_owned();
        format!("{t:?} {spreads:?} {shifts:?} {room:?} prints {} {}, the reading {} {}", ours.0, text(&ours), theirs.0, text(&theirs))
    });
    ours
}

/// In a cell that shows a value both times, the list rule of its side.
fn in_order(tally: &mut Tally, side: Side, first: &Page, second: &Page, columns: usize, rows: usize) {
    for i in 0..rows {
        for j in 0..columns {
            let (a, b) = (cell(first, columns, i, j), cell(second, columns, i, j));
            if shown(a) == 0 && shown(b) == 0 {
                tally.case(0, side.in_order(cents(a), cents(b)), || format!("{b} behind {a}"));
            }
        }
    }
}

pub fn round(long: bool, seed: u64) -> Found {
    let cases = if long { 100_000 } else { 2_000 };
    let mut random = Random(seed ^ 0x7ab1e);
    let mut pages = Tally::new("table");
    let mut singles = Tally::new("table, cells");
    let [mut calls, mut puts] = ["table, calls", "table, puts"].map(Tally::new);
    for _ in 0..cases {
        let t = table_terms(&mut random);
        let (spreads, shifts) = (spreads(&mut random), shifts(&mut random));
        let room = tree::room(&mut random, &t, tree::AMPLE);
        let first = compare(&mut pages, &t, &spreads, &shifts, room);
        if first.0 != 0 {
            continue;
        }
        cells(&mut singles, &first, &t, &spreads, &shifts, room);
        for (side, rule) in [(Side::Call, &mut calls), (Side::Put, &mut puts)] {
            let list = side.list(&t);
            if list.ends.len() != list.starts.len() || list.strikes.len() != list.starts.len() {
                continue;
            }
            let (list, _) = made_from(&mut random, side, list);
            let second = compare(&mut pages, &side.with(&t, list), &spreads, &shifts, room);
            in_order(rule, side, &first, &second, spreads.len(), shifts.len());
        }
    }
    let missing = pages.missing(&[0, 45]) + singles.missing(&SHOWN);
    pages.done() + singles.done() + calls.done() + puts.done() + missing
}
