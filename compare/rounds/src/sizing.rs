//! Sizing against the second reading (number, place, lengths, node count, the lent slice), and against the entries that it sizes for:
//! the tree value in slices of just these lengths and in each four with one shorter by a place, spread from price in the same,
//! and sizing again with a call or put list made from an accepted one.
use crate::calllists::{made_from, Side};
use crate::faults;
use crate::random::Random;
use crate::tally::{Found, Tally};
use crate::terms::{self, pick};
use crate::tree::{tree_terms, AMPLE};
use host::Lent;
use reading::sizing::{self, Sizes};
use reading::terms::{Calls, Leg, Pillars, Sigma};
use reading::treebasedbondpricer::{least_room, Room, Terms};
use reading::{Outcome, Refusal};

/// The refusals that can be met; a run must meet each. 38 isn't there: no price is made.
pub const SIZED: [u32; 18] = [1, 2, 3, 4, 5, 6, 7, 8, 21, 22, 23, 26, 27, 33, 34, 35, 37, 44];

/// One step of so many years, with an alpha far below 0: exp is near its limit, and variances are near the greatest doubles.
fn steep(random: &mut Random) -> Terms {
    let mut t = tree_terms(random);
    let years = random.between(33.0, 72.0);
    let last = t.settlement + (365.0 * years) as u32;
    t.leg = Leg { days: vec![last], kinds: vec![1], amounts: vec![100.0] };
    (t.calls, t.puts) = (Calls::default(), Calls::default());
    (t.alpha, t.settings) = (-10.0, (1, 1));
    let times = vec![0.0, years * random.between(0.3, 0.7)];
    t.sigma = Sigma { times, sigmas: vec![random.between(0.1, 10.0), random.between(0.1, 10.0)] };
    t.pillars = Pillars { days: vec![t.settlement, last], factors: vec![1.0, 1.0] };
    t
}

/// A tree's terms, some of them steep.
pub fn sized_terms(random: &mut Random) -> Terms {
    if random.below(100) == 0 {
        steep(random)
    } else {
        tree_terms(random)
    }
}

fn slice_of(places: usize) -> Lent {
    Lent::new(Room { nodes: places, probabilities: 0, first: 0, second: 0 })
}

fn number<T>(answer: &Outcome<T>) -> u32 {
    answer.as_ref().map_or_else(|r| r.number, |_| 0)
}

/// Ample, a few places, or just enough for the two widest neighbours, or one place less.
fn places(random: &mut Random, t: &Terms) -> usize {
    let ample = 4_000;
    match random.below(8) {
        0 => random.below(40) as usize,
        1..=3 => least_slice(t, ample) - usize::from(random.below(2) == 0),
        _ => ample,
    }
}

/// The shortest slice that gives the answer of an ample one, but 1 at the least.
fn least_slice(t: &Terms, ample: usize) -> usize {
    let (whole, _) = sizing::sizes(t, ample);
    let (mut low, mut high) = (0, ample);
    while high - low > 1 {
        let middle = (low + high) / 2;
        if sizing::sizes(t, middle).0 == whole {
            high = middle;
        } else {
            low = middle;
        }
    }
    high
}

fn short_by_one(room: Room, slice: usize) -> Room {
    let mut short = room;
    let slices = [&mut short.nodes, &mut short.probabilities, &mut short.first, &mut short.second];
    slices.into_iter().enumerate().for_each(|(i, length)| *length -= usize::from(i == slice));
    short
}

/// Whether an answer in short slices is right: 21 where the layers can be laid, else the very refusal of ample slices.
fn stops(laid: bool, short: Result<(), Refusal>, ample: Result<(), Refusal>) -> bool {
    match short {
        Err(r) if laid => r.number == 21,
        Err(_) => short == ample,
        Ok(()) => false,
    }
}

/// The tree value in just these lengths, and with one of them shorter.
fn valued(values: &mut Tally, t: &Terms, sizes: Sizes) -> Outcome<(f64, u64)> {
    let room = sizes.room();
    let ample = Room {
        nodes: room.nodes.max(AMPLE.nodes),
        probabilities: room.probabilities.max(AMPLE.probabilities),
        first: room.first.max(AMPLE.first),
        second: room.second.max(AMPLE.second),
    };
    let just = host::tree_value(t, &mut Lent::new(room));
    let wide = host::tree_value(t, &mut Lent::new(ample));
    let counted = just.is_err() || just.is_ok_and(|(_, count)| count == sizes.count);
    let same = match (&just, &wide) {
        (Ok(a), Ok(b)) => a.0.to_bits() == b.0.to_bits() && a.1 == b.1,
        (Err(a), Err(b)) => a == b,
        _ => false,
    };
    let laid = least_room(t, ample).is_some();
    values.case(number(&just), same && counted && number(&just) != 21, || {
        format!("{t:?}, sized {sizes:?}, gives {just:?}, in ample slices {wide:?}")
    });
    for slice in 0..4 {
        let short = short_by_one(room, slice);
        let answer = host::tree_value(t, &mut Lent::new(short));
        let right = stops(laid, answer.map(drop), wide.map(drop));
        values.case(number(&answer), right, || {
            format!("{t:?}, sized {sizes:?}, in {short:?} gives {answer:?}, in ample slices {wide:?}")
        });
    }
    just
}

/// Spread from price in just these lengths, and with one of them shorter; sized at the spread of the terms.
fn solved(spreads: &mut Tally, random: &mut Random, t: &Terms, sizes: Sizes) {
    let target = random.between(50.0, 150.0);
    let room = sizes.room();
    let (just, _) = host::spread_from_price(t, target, &mut Lent::new(room));
    spreads.case(number(&just), number(&just) != 21, || format!("{t:?} at {target}, sized {sizes:?}, gives {just:?}"));
    let short = short_by_one(room, random.below(4) as usize);
    let (answer, _) = host::spread_from_price(t, target, &mut Lent::new(short));
    let laid = least_room(t, room).is_some();
    let right = stops(laid, answer.map(drop), just.map(drop));
    spreads.case(number(&answer), right, || format!("{t:?} at {target}, sized {sizes:?}, in {short:?} gives {answer:?}"));
}

/// A list made from an accepted one: 4 exactly where a strike is outside its range, else the same answer.
fn thinned(lists: &mut Tally, random: &mut Random, t: &Terms, places: usize, first: &Outcome<Sizes>) {
    let side = pick(random, &[Side::Call, Side::Put]);
    let (list, _) = made_from(random, side, side.list(t));
    let second = side.with(t, list.clone());
    let again = host::sizes(&second, &mut slice_of(places));
    let right = match side.outside(&list) {
        Some(i) => again == Err(Refusal { number: 4, place: i as u32 }),
        None => again == *first,
    };
    lists.case(number(&again), right, || format!("{t:?} gives {first:?}, {list:?} {again:?}"));
}

pub fn round(long: bool, seed: u64) -> Found {
    let cases = if long { 1_000_000 } else { 10_000 };
    let mut random = Random(seed ^ 0x512e);
    let mut readings = Tally::new("sizing");
    let mut values = Tally::new("sized values");
    let mut spreads = Tally::new("sized spreads");
    let mut lists = Tally::new("sized lists");
    for case in 0..cases {
        let mut t = sized_terms(&mut random);
        if random.below(20) == 0 {
            faults::several(&mut random, &mut t);
        }
        if pick(&mut random, &[false, false, true]) {
            terms::damage(&mut random, &mut t);
        }
        let places = places(&mut random, &t);
        let mut lent = slice_of(places);
        let ours = host::sizes(&t, &mut lent);
        let (theirs, in_the_input) = sizing::sizes(&t, places);
        let left = if in_the_input { lent.untouched() } else { lent.zeroed() };
        readings.case(number(&ours), left && ours == theirs, || {
            format!("{t:?} in {places} places gives {ours:?} (slice as it must be: {left}), the reading {theirs:?}")
        });
        let Ok(sizes) = ours else { continue };
        if valued(&mut values, &t, sizes).is_ok() {
            thinned(&mut lists, &mut random, &t, places, &ours);
        }
        if case % 50 == 0 {
            solved(&mut spreads, &mut random, &t, sizes);
        }
    }
    let missing = readings.missing(&SIZED) + lists.missing(&[0, 4]);
    readings.done() + values.done() + spreads.done() + lists.done() + missing
}
