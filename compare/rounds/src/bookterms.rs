//! Random books: bonds on one settlement day, curve, sigma and alpha, and their lists one after the other.
use crate::random::Random;
use crate::terms::{self, pick};
use crate::tree::{tree_terms, AMPLE};
use reading::book::Book;
use reading::terms::{Calls, Leg, Pillars, Sigma};
use reading::treebasedbondpricer::{tree_value, Terms};

fn size(random: &mut Random) -> u64 {
    match random.below(24) {
        0 => pick(random, &[31, 32, 32, 33]),
        1 => 34 + random.below(300) * random.below(2),
        2..=5 => 1 + random.below(12),
        _ => 1 + random.below(4),
    }
}

/// Another bond on the shared terms of the first.
pub fn another(random: &mut Random, first: &Terms) -> Terms {
    let own = terms::terms(random);
    let leg = terms::leg(random, first.settlement);
    let calls = terms::calls(random, first.settlement, &leg);
    let puts = terms::puts(random, first.settlement, &leg, &calls);
    Terms { leg, calls, puts, code: own.code, units: own.units, settings: own.settings, spread: own.spread, ..first.clone() }
}

/// Bonds whose shared terms are the first one's; for the most part the curve reaches to the last maturity.
fn members(random: &mut Random) -> Vec<Terms> {
    let first = tree_terms(random);
    let mut members: Vec<Terms> = (1..size(random)).map(|_| another(random, &first)).collect();
    members.push(first);
    let last = members.len() - 1;
    members.swap(0, last);
    if random.below(8) > 0 {
        let reach = members.iter().filter_map(|t| t.leg.days.last()).fold(0, |a, &b| a.max(b));
        if let Some(day) = members[0].pillars.days.last_mut() {
            *day = reach.max(*day);
        }
        let pillars = members[0].pillars.clone();
        members.iter_mut().for_each(|t| t.pillars = pillars.clone());
    }
    if random.below(2) == 0 {
        redraw(random, &mut members);
    }
    members
}

/// Other bonds for those that alone are refused, where a few draws find one.
pub fn redraw(random: &mut Random, members: &mut [Terms]) {
    let first = members[0].clone();
    for t in members.iter_mut().take(40) {
        for _ in 0..4 {
            if tree_value(t, AMPLE).0.is_ok() {
                break;
            }
            *t = another(random, &first);
        }
    }
}

/// A year's bond with a put at settlement, worth its strike times 100 over units.
pub fn put_at_once(strike: f64, units: f64) -> Terms {
    Terms {
        settlement: 0,
        code: 0,
        leg: Leg { days: vec![365], kinds: vec![1], amounts: vec![100.0] },
        units,
        calls: Calls::default(),
        puts: Calls { starts: vec![0], ends: vec![0], strikes: vec![strike] },
        settings: (1, 1),
        alpha: 0.1,
        sigma: Sigma { times: vec![0.0], sigmas: vec![0.01] },
        spread: 0.0,
        pillars: Pillars { days: vec![0, 365], factors: vec![1.0, 0.95] },
    }
}

/// Bonds near the greatest doubles: their sum may not be finite, nor a call's price with a higher strike.
fn huge(random: &mut Random) -> Vec<Terms> {
    let bond = |random: &mut Random| {
        let strike = 1e6 * random.between(0.3, 1.0);
        let mut t = put_at_once(strike, 1e-300);
        (t.code, t.settings.1) = (pick(random, &[0, 1, 2]), 1 + random.below(3) as u32);
        if random.below(2) == 0 {
            (t.units, t.puts.strikes[0]) = (1e-301, strike * 0.01);
            t.calls = Calls { strikes: vec![strike * 0.15], ..t.puts.clone() };
        }
        t
    };
    (0..1 + random.below(5)).map(|_| bond(random)).collect()
}

/// A desk, most of them among a few.
pub fn desk(random: &mut Random) -> u32 {
    let among = 1 + random.below(8);
    random.below(among) as u32
}

/// A desk for each of so many bonds, for one book in 16 with some outside.
fn desks(random: &mut Random, count: usize) -> Vec<u32> {
    let mut desks: Vec<u32> = (0..count).map(|_| desk(random)).collect();
    if random.below(16) == 0 {
        for _ in 0..1 + random.below(2) {
            let i = random.below(count as u64) as usize;
            desks[i] = pick(random, &[8, 9, 256, u32::MAX]);
        }
    }
    desks
}

/// Members of a book, some of them damaged, and their desks.
pub fn drawn(random: &mut Random) -> (Vec<Terms>, Vec<u32>) {
    let mut members = if random.below(12) == 0 { huge(random) } else { members(random) };
    if random.below(3) == 0 {
        for _ in 0..1 + random.below(3) {
            let i = random.below(members.len() as u64) * random.below(3).min(1);
            terms::damage(random, &mut members[i as usize]);
        }
    }
    if random.below(64) == 0 {
        // A positive factor whose logarithm is refused.
        members[0].pillars.factors.last_mut().map(|factor| *factor = 1e-310);
    }
    let desks = desks(random, members.len());
    (members, desks)
}

/// The bonds of an accepted book, each as a call of its own.
pub fn alone_of(book: &Book) -> Vec<Terms> {
    (0..book.size()).map(|bond| book.alone(bond).expect("an accepted book adds up")).collect()
}

/// One place more or less.
fn loosen<T: Copy>(random: &mut Random, list: &mut Vec<T>, value: T) {
    match random.below(3) {
        0 => list.push(value),
        1 => {
            list.pop();
        }
        _ => list.truncate(random.below(list.len() as u64 + 1) as usize),
    }
}

/// Lists that don't add up, or add up otherwise.
pub fn loosened(random: &mut Random, book: &mut Book) {
    match random.below(22) {
        0 => loosen(random, &mut book.codes, 0),
        1 => loosen(random, &mut book.flow_counts, 1),
        2 => loosen(random, &mut book.leg.days, 199_999),
        3 => loosen(random, &mut book.leg.kinds, 0),
        4 => loosen(random, &mut book.leg.amounts, 1.0),
        5 => loosen(random, &mut book.units, 1.0),
        6 => loosen(random, &mut book.call_counts, 0),
        7 => loosen(random, &mut book.calls.starts, 1),
        8 => loosen(random, &mut book.calls.strikes, 1.0),
        9 => loosen(random, &mut book.put_counts, 0),
        10 => loosen(random, &mut book.puts.ends, 1),
        11 => loosen(random, &mut book.per_year, 1),
        12 => loosen(random, &mut book.max_steps, 1),
        13 => loosen(random, &mut book.spreads, 0.0),
        14 => loosen(random, &mut book.calls.ends, 1),
        15 => loosen(random, &mut book.puts.starts, 1),
        16 => loosen(random, &mut book.puts.strikes, 1.0),
        17 => book.flow_counts.clear(),
        18 => loosen(random, &mut book.desks, 7),
        19 => loosen(random, &mut book.desks, 8),
        _ => {
            let counts = [&mut book.flow_counts, &mut book.call_counts, &mut book.put_counts];
            let counts = counts.into_iter().nth(random.below(3) as usize).unwrap();
            let i = random.below(counts.len() as u64) as usize;
            counts[i] = pick(random, &[counts[i].wrapping_sub(1), counts[i] + 1, 0, u32::MAX]);
        }
    }
}
