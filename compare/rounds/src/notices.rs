//! Call notices against the second reading (list, number, place), and shuffled: the same list, and the same number of a refusal.
use crate::random::Random;
use crate::tally::{Found, Tally};
use crate::terms::pick;
use reading::notices::{self, Notices};
use reading::terms::{Calls, Input};
use reading::Outcome;
use std::collections::BTreeSet;

/// What a run must meet, 0 for accepted.
const MET: [u32; 8] = [0, 2, 3, 4, 5, 41, 42, 43];

const LAST_DAY: u32 = 200_000;
const LIMIT: f64 = 1e6;

/// A strike that no check accepts.
fn wrong_strike(random: &mut Random) -> f64 {
    let above = f64::from_bits(LIMIT.to_bits() + 1);
    pick(random, &[f64::NAN, f64::INFINITY, f64::NEG_INFINITY, 0.0, -0.0, -1.0, above, f64::MAX])
}

/// The call fields of one more notice: good ones, the limits among them, or for some withdrawals none that a check would accept.
fn push_call(random: &mut Random, calls: &mut Calls, withdrawn: bool) {
    let wrong = withdrawn && random.below(2) == 0;
    let any = random.below(u64::from(LAST_DAY) + 1) as u32;
    let start = pick(random, &[0, LAST_DAY, any, any]);
    let end = match random.below(4) {
        0 => start,
        1 => LAST_DAY,
        _ => (start + random.below(900) as u32).min(LAST_DAY),
    };
    let strike = match random.below(8) {
        0 => LIMIT,
        1 => f64::from_bits(1),
        _ => random.between(80.0, 120.0),
    };
    calls.starts.push(if wrong { pick(random, &[LAST_DAY + 1, u32::MAX, start]) } else { start });
    calls.ends.push(if wrong { random.bits() as u32 } else { end });
    calls.strikes.push(if wrong { wrong_strike(random) } else { strike });
}

/// Notices of which no two have one series and version.
pub fn good(random: &mut Random) -> Notices {
    let count = match random.below(40) {
        0 => 0,
        1 => 256,
        2 => 257 + random.below(40),
        3..=6 => random.below(257),
        7..=14 => random.below(40),
        _ => random.below(8),
    };
    let most = pick(random, &[1, 3, 8, 64]).max(count / 40);
    let mut met = BTreeSet::new();
    let mut n = Notices::default();
    for _ in 0..count {
        let (series, version) = loop {
            let series = if random.below(12) == 0 { 64 } else { 1 + random.below(most) as u32 };
            let version = match random.below(8) {
                0 => 65_535,
                1 => 1,
                2..=5 => 1 + random.below(count + 4) as u32,
                _ => 1 + random.below(65_535) as u32,
            };
            if met.insert((series, version)) {
                break (series, version);
            }
        };
        let action = u32::from(random.below(3) == 0);
        n.series.push(series);
        n.versions.push(version);
        n.actions.push(action);
        push_call(random, &mut n.calls, action == 1);
    }
    n
}

/// One thing wrong at a notice, or a slice shorter or longer by one, after which nothing more.
pub fn damage(random: &mut Random, n: &mut Notices) {
    if !parallel(n) {
        return;
    }
    if n.series.is_empty() {
        n.calls.strikes.push(100.0);
        return;
    }
    let i = random.below(n.series.len() as u64) as usize;
    match random.below(12) {
        0 => n.series[i] = pick(random, &[0, 65, u32::MAX]),
        1 => n.versions[i] = pick(random, &[0, 65_536, u32::MAX]),
        2 => n.actions[i] = pick(random, &[2, 256, u32::MAX]),
        3..=5 => {
            let j = random.below(n.series.len() as u64) as usize;
            (n.series[i], n.versions[i]) = (n.series[j], n.versions[j]);
        }
        6 => n.calls.starts[i] = pick(random, &[LAST_DAY + 1, u32::MAX]),
        7 => n.calls.ends[i] = pick(random, &[LAST_DAY + 1, u32::MAX]),
        8 => n.calls.strikes[i] = wrong_strike(random),
        9 => (n.calls.starts[i], n.calls.ends[i]) = (101, 100),
        10 => n.actions[i] = 1 - n.actions[i].min(1),
        _ => {
            let lists = [&mut n.series, &mut n.versions, &mut n.actions, &mut n.calls.starts, &mut n.calls.ends];
            match lists.into_iter().nth(random.below(6) as usize) {
                Some(list) if random.below(2) == 0 => list.push(1),
                Some(list) => drop(list.pop()),
                None => drop(n.calls.strikes.pop()),
            }
        }
    }
}

/// The same notices in another order; a withdrawal's call fields are others.
fn shuffled(random: &mut Random, n: &Notices) -> Notices {
    let mut order: Vec<usize> = (0..n.series.len()).collect();
    for i in (1..order.len()).rev() {
        order.swap(i, random.below(i as u64 + 1) as usize);
    }
    let mut other = Notices::default();
    for &i in &order {
        other.series.push(n.series[i]);
        other.versions.push(n.versions[i]);
        other.actions.push(n.actions[i]);
        if n.actions[i] == 1 {
            push_call(random, &mut other.calls, true);
        } else {
            other.calls.starts.push(n.calls.starts[i]);
            other.calls.ends.push(n.calls.ends[i]);
            other.calls.strikes.push(n.calls.strikes[i]);
        }
    }
    other
}

fn same_calls(a: &Calls, b: &Calls) -> bool {
    let bits = |c: &Calls| -> Vec<u64> { c.strikes.iter().map(|x| x.to_bits()).collect() };
    a.starts == b.starts && a.ends == b.ends && bits(a) == bits(b)
}

fn number(list: &Outcome<Calls>) -> u32 {
    list.as_ref().map_or_else(|r| r.number, |_| 0)
}

pub fn parallel(n: &Notices) -> bool {
    let lengths = [n.versions.len(), n.actions.len(), n.calls.starts.len(), n.calls.ends.len(), n.calls.strikes.len()];
    lengths == [n.series.len(); 5]
}

pub fn round(long: bool, seed: u64) -> Found {
    let cases = if long { 1_000_000 } else { 10_000 };
    let mut random = Random(seed ^ 0xca11);
    let mut readings = Tally::new("notices");
    let mut orders = Tally::new("shuffled");
    for _ in 0..cases {
        let mut n = good(&mut random);
        for _ in 0..pick(&mut random, &[0, 0, 1, 1, 2, 4]) {
            damage(&mut random, &mut n);
        }
        let (ours, theirs) = (host::call_list(&n), notices::call_list(&n));
        let agree = match (&ours, &theirs) {
            (Ok(a), Ok(b)) => same_calls(a, b) && Input { calls: Some(a), ..Input::default() }.checked().is_ok(),
            (Err(a), Err(b)) => a == b,
            _ => false,
        };
        readings.case(number(&ours), agree, || format!("{n:?} gives {ours:?}, the reading {theirs:?}"));
        if parallel(&n) {
            let other = shuffled(&mut random, &n);
            let again = host::call_list(&other);
            let agree = match (&ours, &again) {
                (Ok(a), Ok(b)) => same_calls(a, b),
                _ => number(&ours) == number(&again),
            };
            orders.case(number(&again), agree, || format!("{n:?} gives {ours:?}, in another order {again:?}"));
        }
    }
    let missing = readings.missing(&MET);
    readings.done() + orders.done() + missing
}
