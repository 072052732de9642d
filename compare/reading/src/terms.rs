//! What a call brings, the input checks 1 to 9, 33 to 35, 37 and 44, and the curve.
use alloc::vec::Vec;
use crate::daycount::{year_fraction, LAST_CODE};
use crate::elementary::{exp_at, ln_at, tested};
use crate::{Answer, Outcome, Refusal};

#[derive(Clone, Debug, Default)]
pub struct Leg {
    pub days: Vec<u32>,
    pub kinds: Vec<u8>,
    pub amounts: Vec<f64>,
}

/// Call entries or put entries.
#[derive(Clone, Debug, Default)]
pub struct Calls {
    pub starts: Vec<u32>,
    pub ends: Vec<u32>,
    pub strikes: Vec<f64>,
}

#[derive(Clone, Debug, Default)]
pub struct Sigma {
    pub times: Vec<f64>,
    pub sigmas: Vec<f64>,
}

#[derive(Clone, Debug, Default)]
pub struct Pillars {
    pub days: Vec<u32>,
    pub factors: Vec<f64>,
}

/// Every input that some entry takes. `None` and empty slices are what an entry doesn't take.
#[derive(Clone, Copy, Default)]
pub struct Input<'a> {
    pub settlement: u32,
    pub code: u32,
    pub leg: Option<&'a Leg>,
    pub units: Option<f64>,
    pub calls: Option<&'a Calls>,
    pub puts: Option<&'a Calls>,
    pub settings: Option<(u32, u32)>,
    pub alpha: Option<f64>,
    pub sigma: Option<&'a Sigma>,
    pub spread: Option<f64>,
    pub pillars: Option<&'a Pillars>,
    pub rate: Option<(u32, u32)>,
    pub given_yield: Option<f64>,
    pub target: Option<f64>,
}

const LAST_DAY: u32 = 200_000;

fn refused(number: u32, place: usize) -> Outcome<()> {
    Err(Refusal { number, place: place as u32 })
}

/// The lowest index at which a cause holds.
fn indexed(number: u32, count: usize, cause: impl Fn(usize) -> bool) -> Outcome<()> {
    match (0..count).find(|&i| cause(i)) {
        Some(i) => refused(number, i),
        None => Ok(()),
    }
}

fn when(number: u32, cause: bool) -> Outcome<()> {
    if cause {
        refused(number, 0)
    } else {
        Ok(())
    }
}

/// Within ±limit, finite.
fn inside(x: f64, limit: f64) -> bool {
    x.is_finite() && -limit <= x && x <= limit
}

pub fn frequency_known(code: u32) -> bool {
    matches!(code, 1 | 2 | 3 | 4 | 6 | 12 | 13 | 26 | 52 | 365 | 999)
}

impl Input<'_> {
    /// Number by number over all that is taken; inside a number single fields, cashflows, calls, puts,
    /// sigma, pillars; then the lowest index.
    pub fn checked(&self) -> Outcome<()> {
        if let Some((per_year, maximum)) = self.settings {
            when(1, !(1..=366).contains(&per_year) || !(1..=512).contains(&maximum))?;
        }
        when(33, self.code > LAST_CODE)?;
        self.counts()?;
        when(37, self.puts.is_some_and(|p| p.starts.len() > 64))?;
        self.days()?;
        self.numbers()?;
        for c in self.sides() {
            indexed(5, c.starts.len(), |i| c.ends[i] < c.starts[i])?;
        }
        if let Some(s) = self.sigma {
            indexed(6, s.times.len(), |i| i > 0 && s.times[i] <= s.times[i - 1])?;
        }
        if let Some(l) = self.leg {
            when(7, l.days.iter().all(|&day| day <= self.settlement))?;
            self.pillar_order(l)?;
            // Of the entries that take a leg, the grid and those that are built on it take settings.
            let maturity = *l.days.last().unwrap();
            when(35, self.settings.is_some() && self.time(maturity) == 0.0)?;
        }
        if let Some((compounding, frequency)) = self.rate {
            let known = match compounding {
                0 | 2 => true,
                1 | 3 | 4 => frequency_known(frequency),
                _ => false,
            };
            when(9, !known)?;
        }
        if let Some(p) = self.pillars {
            indexed(44, p.factors.len(), |i| !(p.factors[i] > 0.0))?;
        }
        Ok(())
    }

    /// The calls, then the puts.
    fn sides(&self) -> impl Iterator<Item = &Calls> {
        [self.calls, self.puts].into_iter().flatten()
    }

    fn time(&self, day: u32) -> f64 {
        year_fraction(self.settlement, self.code, day)
    }

    /// 8, then 34: two pillars at one time, the later one the place.
    fn pillar_order(&self, leg: &Leg) -> Outcome<()> {
        let Some(p) = self.pillars else { return Ok(()) };
        let maturity = *leg.days.last().unwrap();
        let last = p.days.len() - 1;
        indexed(8, p.days.len(), |i| match i {
            0 => p.days[0] != self.settlement,
            _ => p.days[i] <= p.days[i - 1] || i == last && p.days[i] < maturity,
        })?;
        let times: Vec<f64> = p.days.iter().map(|&day| self.time(day)).collect();
        indexed(34, times.len(), |i| times[..i].contains(&times[i]))
    }

    fn counts(&self) -> Outcome<()> {
        if let Some(l) = self.leg {
            let n = l.days.len();
            when(2, !(1..=256).contains(&n) || l.kinds.len() != n || l.amounts.len() != n)?;
        }
        if let Some(c) = self.calls {
            let n = c.starts.len();
            when(2, n > 64 || c.ends.len() != n || c.strikes.len() != n)?;
        }
        // More than 64 puts are not 2 but 37.
        if let Some(p) = self.puts {
            let n = p.starts.len();
            when(2, p.ends.len() != n || p.strikes.len() != n)?;
        }
        if let Some(s) = self.sigma {
            let n = s.times.len();
            when(2, !(1..=64).contains(&n) || s.sigmas.len() != n)?;
        }
        if let Some(p) = self.pillars {
            let n = p.days.len();
            when(2, !(2..=256).contains(&n) || p.factors.len() != n)?;
        }
        Ok(())
    }

    fn days(&self) -> Outcome<()> {
        when(3, self.settlement > LAST_DAY)?;
        if let Some(l) = self.leg {
            indexed(3, l.days.len(), |i| {
                l.days[i] > LAST_DAY || i > 0 && l.days[i] < l.days[i - 1] || l.kinds[i] > 1
            })?;
        }
        for c in self.sides() {
            indexed(3, c.starts.len(), |i| c.starts[i] > LAST_DAY || c.ends[i] > LAST_DAY)?;
        }
        if let Some(p) = self.pillars {
            indexed(3, p.days.len(), |i| p.days[i] > LAST_DAY)?;
        }
        Ok(())
    }

    fn numbers(&self) -> Outcome<()> {
        let single = [
            self.units.map(|u| u > 0.0 && inside(u, 1e12)),
            self.alpha.map(|a| inside(a, 10.0)),
            self.spread.map(|s| inside(s, 1.0)),
            self.given_yield.map(|y| inside(y, 1e6)),
            self.target.map(|t| inside(t, 1e15)),
        ];
        when(4, single.contains(&Some(false)))?;
        if let Some(l) = self.leg {
            indexed(4, l.amounts.len(), |i| !inside(l.amounts[i], 1e12))?;
        }
        for c in self.sides() {
            indexed(4, c.strikes.len(), |i| !(c.strikes[i] > 0.0 && inside(c.strikes[i], 1e6)))?;
        }
        if let Some(s) = self.sigma {
            let up_to = |x: f64, limit: f64| x >= 0.0 && inside(x, limit);
            indexed(4, s.times.len(), |i| !up_to(s.times[i], 600.0) || !up_to(s.sigmas[i], 10.0))?;
        }
        if let Some(p) = self.pillars {
            indexed(4, p.factors.len(), |i| !inside(p.factors[i], 1000.0))?;
        }
        Ok(())
    }
}

/// From a pillar up to the next exp of the line through the logarithms of their factors; from the last pillar on, its factor.
pub fn curve(settlement: u32, code: u32, pillars: &Pillars, t: f64, place: u32) -> Answer {
    let time = |i: usize| year_fraction(settlement, code, pillars.days[i]);
    for i in 1..pillars.days.len() {
        if t < time(i) {
            let (t0, t1) = (time(i - 1), time(i));
            let l0 = ln_at(pillars.factors[i - 1], place)?;
            let l1 = ln_at(pillars.factors[i], place)?;
            let rise = tested(l1 - l0, place)?;
            let share = tested((t - t0) / (t1 - t0), place)?;
            return exp_at(tested(l0 + tested(rise * share, place)?, place)?, place);
        }
    }
    Ok(*pillars.factors.last().unwrap())
}
