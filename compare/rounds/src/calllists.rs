//! The list rules on the running code. Of terms that the tree value accepts, a second call list made by reordering, dropping and raising
//! strikes, or a second put list made by reordering, dropping and lowering strikes, all else equal and slices as long, is refused with 4
//! exactly when a strike is outside its range, and is otherwise accepted with a value that isn't lower (calls) or higher (puts), or refused
//! with 27. Reordering either list changes nothing.
use crate::random::Random;
use crate::tally::{Found, Tally};
use crate::tree::{tree_terms, AMPLE};
use host::Lent;
use reading::bondevents::Grid;
use reading::terms::{Calls, Leg};
use reading::treebasedbondpricer::Terms;
use reading::{Answer, Outcome};

const LIMIT: f64 = 1e6;

#[derive(Clone, Copy, PartialEq)]
pub enum Side {
    Call,
    Put,
}

impl Side {
    pub fn list(self, t: &Terms) -> &Calls {
        match self {
            Side::Call => &t.calls,
            Side::Put => &t.puts,
        }
    }

    pub fn with(self, t: &Terms, list: Calls) -> Terms {
        match self {
            Side::Call => Terms { calls: list, ..t.clone() },
            Side::Put => Terms { puts: list, ..t.clone() },
        }
    }

    /// A strike at least as high, or for puts at least as low.
    fn moved(self, random: &mut Random, strike: f64) -> f64 {
        match self {
            Side::Call => raised(random, strike),
            Side::Put => lowered(random, strike),
        }
    }

    /// The first strike outside its range.
    pub fn outside(self, list: &Calls) -> Option<usize> {
        list.strikes.iter().position(|&strike| match self {
            Side::Call => strike > LIMIT,
            Side::Put => strike <= 0.0,
        })
    }

    pub fn in_order(self, first: f64, second: f64) -> bool {
        match self {
            Side::Call => first <= second,
            Side::Put => second <= first,
        }
    }
}

fn raised(random: &mut Random, strike: f64) -> f64 {
    match random.below(16) {
        0..=6 => strike,
        7..=9 => strike * random.between(1.0, 1.5),
        10 | 11 => strike.max(random.between(0.0, LIMIT)),
        12 => LIMIT,
        13 => f64::from_bits(LIMIT.to_bits() + 1),
        14 => strike + LIMIT,
        _ => [f64::INFINITY, f64::MAX, strike + 1e5][random.below(3) as usize],
    }
}

fn lowered(random: &mut Random, strike: f64) -> f64 {
    match random.below(16) {
        0..=6 => strike,
        7..=9 => strike * random.between(0.5, 1.0),
        10 | 11 => strike * 10f64.powf(random.between(-300.0, 0.0)),
        12 => f64::from_bits(1),
        13 => [0.0, -0.0][random.below(2) as usize],
        14 => strike - LIMIT,
        _ => [f64::NEG_INFINITY, -f64::MAX, strike / 2.0][random.below(3) as usize],
    }
}

/// A second list made from the first, and whether it is only reordered.
pub fn made_from(random: &mut Random, side: Side, first: &Calls) -> (Calls, bool) {
    let (drops, moves) = (random.below(2) == 0, random.below(2) == 0);
    let mut order: Vec<usize> = (0..first.starts.len()).collect();
    for i in (1..order.len()).rev() {
        order.swap(i, random.below(i as u64 + 1) as usize);
    }
    if drops {
        order.retain(|_| random.below(3) > 0);
    }
    let mut second = Calls::default();
    for &i in &order {
        second.starts.push(first.starts[i]);
        second.ends.push(first.ends[i]);
        let strike = first.strikes[i];
        second.strikes.push(if moves { side.moved(random, strike) } else { strike });
    }
    let only = !moves && order.len() == first.starts.len();
    (second, only)
}

/// A curve so steep that only an exercise in its middle keeps the walk finite: under calls what is paid is large, under puts what is owed.
fn steep(random: &mut Random, t: &mut Terms, side: Side) {
    let last = t.settlement + 1095;
    let size = 10f64.powf(random.between(8.0, 12.0));
    t.leg = match side {
        Side::Call => Leg { days: vec![last], kinds: vec![1], amounts: vec![size] },
        Side::Put => Leg { days: vec![last, last], kinds: vec![0, 1], amounts: vec![-size, 1.0] },
    };
    t.pillars.days = (0..4).map(|year| t.settlement + 365 * year).collect();
    t.pillars.factors = vec![1.0, 10f64.powf(random.between(-305.0, -290.0)), 1e-150, random.between(1.0, 1000.0)];
    t.settings = (1, 512);
    let day = t.settlement + 730;
    let list = match side {
        Side::Call => &mut t.calls,
        Side::Put => &mut t.puts,
    };
    (list.starts[0], list.ends[0]) = (day, day);
}

/// Terms with an entry on a side. Some are near an overflow: units so small that a higher strike's price isn't finite, or a steep curve.
fn exercised(random: &mut Random, side: Side) -> Terms {
    let mut t = tree_terms(random);
    while side.list(&t).starts.is_empty() {
        t = tree_terms(random);
    }
    match random.below(16) {
        0 | 1 => t.units = 10f64.powf(random.between(-304.0, -295.0)),
        2 | 3 => steep(random, &mut t, side),
        _ => {}
    }
    t
}

fn grid(t: &Terms) -> Outcome<Grid> {
    host::grid(t.settlement, t.code, &t.leg, t.units, &t.calls, &t.puts, t.settings)
}

fn same_bits(a: &[f64], b: &[f64]) -> bool {
    a.len() == b.len() && a.iter().zip(b).all(|(x, y)| x.to_bits() == y.to_bits())
}

fn same_grid(a: &Grid, b: &Grid) -> bool {
    let prices = |g: &Grid| -> Vec<f64> { g.calls.iter().chain(&g.puts).map(|c| c.unwrap_or(-1.0)).collect() };
    same_bits(&[a.maturity_time], &[b.maturity_time])
        && a.steps == b.steps
        && same_bits(&a.cashflows, &b.cashflows)
        && same_bits(&prices(a), &prices(b))
}

/// What the tree value answers, as bits, and the slices after it.
fn valued(t: &Terms) -> (Outcome<(u64, u64)>, Lent) {
    let mut lent = Lent::new(AMPLE);
    (host::tree_value(t, &mut lent).map(|(value, count)| (value.to_bits(), count)), lent)
}

/// What spread from price answers, as bits, and the slices after it.
fn quoted(t: &Terms, target: f64) -> ((Outcome<u64>, u32), Lent) {
    let mut lent = Lent::new(AMPLE);
    let (spread, tried): (Answer, u32) = host::spread_from_price(t, target, &mut lent);
    ((spread.map(f64::to_bits), tried), lent)
}

/// Whether reordering changed no bit of grid, value, count or slices, nor, where there is a target, of the spread; nothing where the grid
/// refuses the first list.
fn unmoved(first: &Terms, second: &Terms, target: Option<f64>) -> Option<bool> {
    let before = grid(first).ok()?;
    let same_grids = grid(second).is_ok_and(|after| same_grid(&before, &after));
    let ((value, a), (other, b)) = (valued(first), valued(second));
    let same_quotes = target.is_none_or(|target| {
        let ((spread, a), (other, b)) = (quoted(first, target), quoted(second, target));
        spread == other && a.same(&b)
    });
    Some(same_grids && value == other && a.same(&b) && same_quotes)
}

/// Whether the rule holds of what the second list is answered, where the first has the value x.
fn keeps(side: Side, x: f64, list: &Calls, answer: &Outcome<(f64, u64)>) -> bool {
    match (answer, side.outside(list)) {
        (Ok((y, _)), None) => side.in_order(x, *y),
        (Err(r), None) => r.number == 27,
        (Err(r), Some(i)) => (r.number, r.place as usize) == (4, i),
        (Ok(_), Some(_)) => false,
    }
}

/// One case of a side.
fn tried(random: &mut Random, side: Side, reordered: &mut Tally, lists: &mut Tally) {
    let first = exercised(random, side);
    let (list, only) = made_from(random, side, side.list(&first));
    let second = side.with(&first, list.clone());
    let a = host::tree_value(&first, &mut Lent::new(AMPLE));
    let b = host::tree_value(&second, &mut Lent::filled(AMPLE, 3, 0.25));
    let number = b.map_or_else(|r| r.number, |_| 0);
    let target = (random.below(8) == 0).then(|| a.map_or(100.0, |(x, _)| x * 0.99));
    if let (true, Some(same)) = (only, unmoved(&first, &second, target)) {
        reordered.case(number, same, || format!("{first:?} gives {a:?}, reordered {list:?} {b:?}"));
    }
    if let Ok((x, _)) = a {
        lists.case(number, keeps(side, x, &list, &b), || format!("{first:?} gives {a:?}, {list:?} {b:?}"));
    }
}

pub fn round(long: bool, seed: u64) -> Found {
    let cases = if long { 1_000_000 } else { 4_000 };
    let mut random = Random(seed ^ 0x5eed);
    let mut reordered = Tally::new("reordered");
    let [mut calls, mut puts] = ["call lists", "put lists"].map(Tally::new);
    for _ in 0..cases {
        tried(&mut random, Side::Call, &mut reordered, &mut calls);
        tried(&mut random, Side::Put, &mut reordered, &mut puts);
    }
    let missing = calls.missing(&[0, 4, 27]) + puts.missing(&[0, 4, 27]);
    reordered.done() + calls.done() + puts.done() + missing
}
