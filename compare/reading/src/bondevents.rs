//! The event grid.
use alloc::{vec, vec::Vec};
use crate::daycount::year_fraction;
use crate::elementary::{ceil_at, max_at, min_at, refused, round_at, tested};
use crate::terms::{Calls, Input, Leg};
use crate::{Answer, Outcome, Refusal};

#[derive(Clone, Debug, PartialEq)]
pub struct Grid {
    pub maturity_time: f64,
    pub steps: u32,
    pub cashflows: Vec<f64>,
    pub calls: Vec<Option<f64>>,
    pub puts: Vec<Option<f64>>,
}

struct Axis {
    settlement: u32,
    code: u32,
    maturity_time: f64,
    steps: u32,
}

impl Axis {
    fn time(&self, day: u32) -> f64 {
        year_fraction(self.settlement, self.code, day)
    }

    /// round(time/T × steps) clamped to 1..highest.
    fn step(&self, day: u32, highest: u32) -> u32 {
        let raw = round_at(self.time(day) / self.maturity_time * f64::from(self.steps), 0).unwrap();
        if raw < 1.0 {
            1
        } else if raw > f64::from(highest) {
            highest
        } else {
            raw as u32
        }
    }

    fn eligible(&self, start: u32, end: u32, step: u32) -> bool {
        if start != end {
            let time = self.maturity_time * f64::from(step) / f64::from(self.steps);
            time + 1.0e-12 >= self.time(start) && time <= self.time(end) + 1.0e-12
        } else if start == self.settlement {
            step == 0
        } else {
            step == self.step(start, (self.steps - 1).max(1))
        }
    }
}

fn price(axis: &Axis, leg: &Leg, units: f64, start: u32, end: u32, strike: f64, step: u32) -> Answer {
    let mut principal = 0.0;
    // Repaid principal is gone: redemptions on or before settlement count nowhere.
    for i in (0..leg.days.len()).filter(|&i| leg.days[i] > axis.settlement) {
        let after = if start == end {
            leg.days[i] > start
        } else {
            axis.step(leg.days[i], axis.steps) > step
        };
        if leg.kinds[i] == 1 && after {
            principal += leg.amounts[i];
        }
    }
    if principal <= 0.0 {
        return refused(20, 0);
    }
    tested(tested(strike * principal, 0)? / units, 0)
}

/// The prices of one side: of those that apply at a step, the one that is kept of two, again and again.
fn filled(axis: &Axis, leg: &Leg, units: f64, entries: &Calls, kept: fn(f64, f64, u32) -> Answer) -> Outcome<Vec<Option<f64>>> {
    let mut prices: Vec<Option<f64>> = vec![None; 513];
    for i in 0..entries.starts.len() {
        let (start, end) = (entries.starts[i], entries.ends[i]);
        if end < axis.settlement {
            continue;
        }
        for step in (0..axis.steps).filter(|&step| axis.eligible(start, end, step)) {
            let next = price(axis, leg, units, start, end, entries.strikes[i], step)?;
            let at = &mut prices[step as usize];
            *at = Some(match *at {
                Some(existing) => kept(existing, next, 0)?,
                None => next,
            });
        }
    }
    Ok(prices)
}

/// The lowest step at which the put is above the call.
fn crossed(calls: &[Option<f64>], puts: &[Option<f64>]) -> Option<usize> {
    calls.iter().zip(puts).position(|prices| matches!(prices, (Some(call), Some(put)) if put > call))
}

/// The grid of checked terms.
pub fn bond_event_grid(settlement: u32, code: u32, leg: &Leg, units: f64, calls: &Calls, puts: &Calls, settings: (u32, u32)) -> Outcome<Grid> {
    let maturity_time = year_fraction(settlement, code, *leg.days.last().unwrap());
    let target = ceil_at(maturity_time * f64::from(settings.0), 0)?;
    let steps = if target > f64::from(settings.1) { settings.1 } else { (target as u32).max(1) };
    let axis = Axis { settlement, code, maturity_time, steps };
    let mut cashflows = vec![0.0; 513];
    for (&day, &amount) in leg.days.iter().zip(&leg.amounts) {
        if day > settlement {
            cashflows[axis.step(day, steps) as usize] += amount;
        }
    }
    let calls = filled(&axis, leg, units, calls, min_at)?;
    let puts = filled(&axis, leg, units, puts, max_at)?;
    match crossed(&calls, &puts) {
        Some(step) => Err(Refusal { number: 38, place: step as u32 }),
        None => Ok(Grid { maturity_time, steps, cashflows, calls, puts }),
    }
}

/// The grid entry.
pub fn grid(settlement: u32, code: u32, leg: &Leg, units: f64, calls: &Calls, puts: &Calls, settings: (u32, u32)) -> Outcome<Grid> {
    let input = Input {
        settlement,
        code,
        leg: Some(leg),
        units: Some(units),
        calls: Some(calls),
        puts: Some(puts),
        settings: Some(settings),
        ..Input::default()
    };
    input.checked()?;
    bond_event_grid(settlement, code, leg, units, calls, puts, settings)
}
