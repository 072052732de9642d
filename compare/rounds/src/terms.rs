//! Random terms: good ones of every kind, and damaged copies of them.
use crate::random::Random;
use reading::daycount::civil;
use reading::terms::{Calls, Leg, Pillars, Sigma};
use reading::treebasedbondpricer::Terms;

pub fn pick<T: Copy>(random: &mut Random, from: &[T]) -> T {
    from[random.below(from.len() as u64) as usize]
}

fn whole(random: &mut Random, low: u64, high: u64) -> u32 {
    (low + random.below(high - low + 1)) as u32
}

/// 10 to a power between two, either sign where asked.
fn scaled(random: &mut Random, low: f64, high: f64) -> f64 {
    10f64.powf(random.between(low, high))
}

/// The first days of February 1900, 2000, 2024, 2025 and 2100.
const FEBRUARIES: [u32; 5] = [31, 36_555, 45_321, 45_687, 73_080];

/// A day at the end of a month or in the first days of the next, soon after a given one.
fn month_end(random: &mut Random, from: u32) -> u32 {
    let at = (from..).find(|&day| civil(day).2 >= 28).unwrap();
    at + random.below(5) as u32
}

/// A day, or for one in four the end of a month soon after it.
fn perhaps_month_end(random: &mut Random, day: u32) -> u32 {
    match random.below(4) {
        0 => month_end(random, day),
        _ => day,
    }
}

/// The next 30th of a month with a 31st.
fn thirtieth(from: u32) -> u32 {
    (from..).find(|&day| civil(day + 1).2 == 31).unwrap()
}

fn settlement(random: &mut Random) -> u32 {
    match random.below(8) {
        0 => {
            let february = pick(random, &FEBRUARIES);
            month_end(random, february)
        }
        1 => thirtieth(random.below(150_000) as u32) + random.below(2) as u32,
        _ => {
            let day = pick(random, &[0, 1, 365, 40000, 45000, 150_000]);
            perhaps_month_end(random, day)
        }
    }
}

pub fn leg(random: &mut Random, settlement: u32) -> Leg {
    let count = match random.below(8) {
        0 => 1,
        1 => whole(random, 1, 40),
        _ => whole(random, 1, 8),
    };
    let reach = pick(random, &[40, 400, 1500, 4000, 11000]);
    let mut days: Vec<u32> = (0..count)
        .map(|_| match random.below(12) {
            0 => settlement,
            1 => settlement + 1,
            _ => {
                let day = settlement.saturating_sub(200) + whole(random, 0, reach);
                perhaps_month_end(random, day)
            }
        })
        .collect();
    days.sort_unstable();
    let last = days.len() - 1;
    if days[last] <= settlement && random.below(20) > 0 {
        days[last] = settlement + whole(random, 1, reach);
    }
    let kinds = (0..count).map(|i| u8::from(i as usize == last || random.below(4) == 0)).collect();
    let amounts = (0..count)
        .map(|i| match random.below(24) {
            0 => -random.between(0.0, 5.0),
            1 => scaled(random, -3.0, 11.9),
            2 => 0.0,
            _ if i as usize == last => 100.0,
            _ => random.between(0.0, 6.0),
        })
        .collect();
    Leg { days, kinds, amounts }
}

pub fn calls(random: &mut Random, settlement: u32, leg: &Leg) -> Calls {
    let last = *leg.days.last().unwrap();
    let count = match random.below(4) {
        0 => 0,
        1 => random.below(12),
        _ => random.below(4),
    };
    let mut calls = Calls::default();
    for _ in 0..count {
        let low = settlement.saturating_sub(50);
        let high = if random.below(12) == 0 { last + 100 } else { last.max(low + 1) - 1 };
        let start = match random.below(7) {
            0 => settlement,
            1 => settlement + 1,
            2 => pick(random, &leg.days),
            _ => {
                let day = whole(random, u64::from(low), u64::from(high.max(low)));
                perhaps_month_end(random, day)
            }
        };
        let end = match random.below(8) {
            0..=3 => start,
            4 => start + 1,
            _ => {
                let day = start + random.below(900) as u32;
                perhaps_month_end(random, day)
            }
        };
        let strike = match random.below(16) {
            0 => scaled(random, -300.0, 6.0),
            _ => random.between(80.0, 120.0),
        };
        calls.starts.push(start);
        calls.ends.push(end);
        calls.strikes.push(strike);
    }
    calls
}

/// None for half of all; else entries such as calls are, for the most part with lower strikes, and some on the days of a call with a
/// strike below its, or equal, or beside it.
pub fn puts(random: &mut Random, settlement: u32, leg: &Leg, calls: &Calls) -> Calls {
    if random.below(2) == 0 {
        return Calls::default();
    }
    let mut puts = self::calls(random, settlement, leg);
    for i in 0..puts.starts.len() {
        puts.strikes[i] *= random.between(0.4, 1.0);
        if !calls.starts.is_empty() && random.below(3) > 0 {
            let near = random.below(calls.starts.len() as u64) as usize;
            (puts.starts[i], puts.ends[i]) = (calls.starts[near], calls.ends[near]);
            let strike = calls.strikes[near];
            puts.strikes[i] = match random.below(5) {
                0 => strike,
                1 => random.beside(strike),
                _ => strike * random.between(0.7, 1.0),
            };
        }
    }
    puts
}

pub fn sigma(random: &mut Random) -> Sigma {
    let count = match random.below(3) {
        0 => 1,
        _ => 1 + random.below(5),
    };
    let flat = random.below(10) == 0;
    let mut at = if random.below(2) == 0 { 0.0 } else { random.between(0.0, 2.0) };
    let mut sigma = Sigma::default();
    for _ in 0..count {
        sigma.times.push(at);
        at += random.between(0.01, 3.0);
        sigma.sigmas.push(match random.below(12) {
            _ if flat => random.between(0.0, 1e-9),
            0 => 0.0,
            1 => scaled(random, -8.0, 1.0),
            _ => random.between(0.002, 0.03),
        });
    }
    sigma
}

pub fn pillars(random: &mut Random, settlement: u32, last: u32) -> Pillars {
    let mut days = vec![settlement];
    let rate = random.between(-0.01, 0.08);
    for _ in 0..random.below(8) {
        let day = settlement + 1 + random.below(u64::from(last.max(settlement + 2) - settlement)) as u32;
        days.push(perhaps_month_end(random, day));
    }
    if random.below(32) == 0 {
        // At one time under 30E.
        let day = thirtieth(pick(random, &days));
        days.extend([day, day + 1]);
    }
    days.push(last.max(settlement + 1) + random.below(400) as u32);
    days.sort_unstable();
    days.dedup();
    // Where ln has its lower limit and exp falls to 0.
    let sunk = random.below(200) == 0;
    let factors = days
        .iter()
        .map(|&day| match random.below(40) {
            _ if sunk && day > settlement => scaled(random, -307.6, -303.5),
            0 => random.between(-1.0, 2.0),
            1 => scaled(random, -320.0, 2.9),
            _ => (-rate * f64::from(day - settlement) / 365.0).exp(),
        })
        .collect();
    Pillars { days, factors }
}

pub fn spread(random: &mut Random) -> f64 {
    match random.below(5) {
        0 => 0.0,
        1 => random.between(-1.0, 1.0),
        _ => random.between(-0.02, 0.05),
    }
}

pub fn terms(random: &mut Random) -> Terms {
    let settlement = settlement(random);
    let leg = leg(random, settlement);
    let calls = calls(random, settlement, &leg);
    let puts = puts(random, settlement, &leg, &calls);
    let last = *leg.days.last().unwrap();
    let per_year = pick(random, &[1, 1, 2, 4, 12]);
    let maximum = match random.below(20) {
        0 => whole(random, 1, 120),
        _ => whole(random, 1, 24),
    };
    let mut terms = Terms {
        settlement,
        code: pick(random, &[0, 1, 2, 2]),
        units: match random.below(16) {
            0 => scaled(random, -323.0, 12.0),
            _ => pick(random, &[1.0, 100.0, 1000.0]),
        },
        calls,
        puts,
        settings: (per_year, maximum),
        alpha: match random.below(8) {
            0 => 0.0,
            1 => random.between(-10.0, 10.0),
            2 => random.between(-1e-12, 1e-12) * 2.0,
            _ => random.between(-0.1, 0.3),
        },
        sigma: sigma(random),
        spread: spread(random),
        pillars: pillars(random, settlement, last),
        leg,
    };
    if random.below(64) == 0 {
        mature_at_once(random, &mut terms);
    }
    terms
}

/// Settlement on a 30th and all that is paid on the 31st, at time 0 under 30E.
fn mature_at_once(random: &mut Random, terms: &mut Terms) {
    let settlement = thirtieth(terms.settlement);
    terms.settlement = settlement;
    terms.leg.days.iter_mut().for_each(|day| *day = (*day).min(settlement + 1));
    *terms.leg.days.last_mut().unwrap() = settlement + 1;
    terms.pillars.days = vec![settlement, settlement + 1 + random.below(4) as u32];
    terms.pillars.factors.truncate(2);
}

const BAD: [f64; 9] = [f64::NAN, f64::INFINITY, f64::NEG_INFINITY, -0.0, 0.0, -1.0, 1e300, 5e-324, 1.0000001e12];

fn bad(random: &mut Random, limits: &[f64]) -> f64 {
    if random.below(2) == 0 {
        return pick(random, &BAD);
    }
    let x = pick(random, limits);
    let x = random.sign(x);
    random.beside(x)
}

fn bad_day(random: &mut Random, near: u32) -> u32 {
    pick(random, &[0, near.saturating_sub(1), near, near + 1, 200_000, 200_001, u32::MAX])
}

fn spoil<T: Copy>(random: &mut Random, list: &mut Vec<T>, value: T) {
    match random.below(10) {
        0 => {
            list.pop();
        }
        1 => list.push(value),
        2 => list.clear(),
        3 => list.resize(pick(random, &[63, 64, 65, 255, 256, 257]), value),
        _ if !list.is_empty() => {
            let i = random.below(list.len() as u64) as usize;
            list[i] = value;
        }
        _ => {}
    }
}

/// So many entries.
fn many(entries: &mut Calls, n: usize, day: u32, strike: f64) {
    entries.starts.resize(n, day);
    entries.ends.resize(n, day);
    entries.strikes.resize(n, strike);
}

/// Changes one or two fields so that they may break a rule, at the limits and one past them.
pub fn damage(random: &mut Random, terms: &mut Terms) {
    for _ in 0..1 + random.below(2) {
        let near = terms.settlement;
        match random.below(23) {
            0 => terms.settlement = bad_day(random, near),
            1 => {
                let v = bad_day(random, near);
                spoil(random, &mut terms.leg.days, v);
            }
            2 => {
                let v = pick(random, &[0, 1, 2, 255]);
                spoil(random, &mut terms.leg.kinds, v);
            }
            3 => {
                let v = bad(random, &[1e12]);
                spoil(random, &mut terms.leg.amounts, v);
            }
            4 => terms.units = bad(random, &[1e12]),
            5 => {
                let v = bad_day(random, near);
                spoil(random, &mut terms.calls.starts, v);
            }
            6 => {
                let v = bad_day(random, near);
                spoil(random, &mut terms.calls.ends, v);
            }
            7 => {
                let v = bad(random, &[1e6]);
                spoil(random, &mut terms.calls.strikes, v);
            }
            8 => terms.settings.0 = pick(random, &[0, 1, 366, 367, u32::MAX]),
            9 => terms.settings.1 = pick(random, &[0, 1, 512, 513, u32::MAX]),
            10 => terms.alpha = bad(random, &[10.0]),
            11 => {
                let v = bad(random, &[0.0, 600.0]);
                spoil(random, &mut terms.sigma.times, v);
            }
            12 => {
                let v = bad(random, &[0.0, 10.0]);
                spoil(random, &mut terms.sigma.sigmas, v);
            }
            13 => terms.spread = bad(random, &[1.0]),
            14 => {
                let v = bad_day(random, near);
                spoil(random, &mut terms.pillars.days, v);
            }
            15 => {
                let v = bad(random, &[1000.0]);
                spoil(random, &mut terms.pillars.factors, v);
            }
            16 if !terms.leg.days.is_empty() => {
                // A whole list and its companions, at the limits of its count.
                let n = pick(random, &[255, 256, 257]);
                terms.leg.days.resize(n, *terms.leg.days.last().unwrap());
                terms.leg.kinds.resize(n, 0);
                terms.leg.amounts.resize(n, 1.0);
            }
            17 => terms.code = pick(random, &[0, 1, 2, 3, 3, 3, u32::MAX]),
            18 => {
                let v = bad_day(random, near);
                spoil(random, &mut terms.puts.starts, v);
            }
            19 => {
                let v = bad_day(random, near);
                spoil(random, &mut terms.puts.ends, v);
            }
            20 => {
                let v = bad(random, &[1e6]);
                spoil(random, &mut terms.puts.strikes, v);
            }
            21 => {
                let n = pick(random, &[63, 64, 65, 300]);
                many(&mut terms.puts, n, near, 50.0);
            }
            _ => {
                let n = pick(random, &[63, 64, 65]);
                many(&mut terms.calls, n, near, 100.0);
            }
        }
    }
}
