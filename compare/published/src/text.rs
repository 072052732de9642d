//! The text itself, and a function for each entry that hands it 01's inputs.
use crate::stand_ins::*;
use core::fmt;
use reading::terms::{curve, Calls, Leg as Flows, Pillars, Sigma};
use std::collections::{BTreeMap, BTreeSet};
use std::{format, vec, vec::Vec};

include!(concat!(env!("OUT_DIR"), "/published.rs"));

impl Scalar for Tested {
    fn scalar(v: f64) -> Self {
        Tested::of(v)
    }
    fn value(&self) -> f64 {
        self.0
    }
    fn zero() -> Self {
        Tested(0.0)
    }
    fn one() -> Self {
        Tested(1.0)
    }
    fn exp(self) -> Self {
        Tested(Elementary::exp(self.0))
    }
    fn ln(self) -> Self {
        Tested(Elementary::ln(self.0))
    }
    fn sqrt(self) -> Self {
        Tested(Elementary::sqrt(self.0))
    }
    fn sin(self) -> Self {
        unimplemented!()
    }
    fn cos(self) -> Self {
        unimplemented!()
    }
    fn abs(self) -> Self {
        Tested(self.0.abs())
    }
    fn powf(self, p: f64) -> Self {
        Tested(Elementary::powf(self.0, p))
    }
    fn pows(self, p: Self) -> Self {
        self.powf(p.0)
    }
    fn max_val(self, other: Self) -> Self {
        Tested(self.0.max(other.0))
    }
    fn min_val(self, other: Self) -> Self {
        Tested(self.0.min(other.0))
    }
    fn add_val(self, other: Self) -> Self {
        Tested::of(self.0 + other.0)
    }
    fn sub_val(self, other: Self) -> Self {
        Tested::of(self.0 - other.0)
    }
    fn mul_val(self, other: Self) -> Self {
        Tested::of(self.0 * other.0)
    }
    fn div_val(self, other: Self) -> Self {
        Tested::of(self.0 / other.0)
    }
    fn neg_val(self) -> Self {
        Tested(-self.0)
    }
}

/// The leg without redemptions on or before settlement: repaid principal counts nowhere.
fn leg_of(settlement: u32, leg: &Flows) -> Leg<DualFwd> {
    let flows = (0..leg.days.len())
        .filter(|&i| leg.kinds[i] != 1 || leg.days[i] > settlement)
        .map(|i| match leg.kinds[i] {
            1 => CashflowType::Redemption(Redemption { day: leg.days[i], amount: leg.amounts[i] }),
            _ => CashflowType::Coupon,
        })
        .collect();
    Leg { flows, scalar: core::marker::PhantomData }
}

fn paid<T>(settlement: u32, leg: &Flows, of: impl Fn(f64) -> T) -> Vec<ResolvedCashflow<T>> {
    (0..leg.days.len())
        .filter(|&i| leg.days[i] > settlement)
        .map(|i| ResolvedCashflow { payment_date: Date(leg.days[i]), amount: of(leg.amounts[i]) })
        .collect()
}

fn schedule(calls: &Calls) -> Vec<CallScheduleEntry> {
    (0..calls.starts.len())
        .map(|i| CallScheduleEntry { start: calls.starts[i], end: calls.ends[i], strike: calls.strikes[i] })
        .collect()
}

fn events(settlement: u32, code: u32, leg: &Flows, units: f64, calls: &Calls, settings: (u32, u32)) -> Result<BondEventGrid<Tested>> {
    let controls = TimeGridConfiguration { code, steps_per_year: settings.0 as usize, max_steps: settings.1 as usize };
    bond_event_grid(&leg_of(settlement, leg), units, &schedule(calls), &paid(settlement, leg, Tested), Date(settlement), controls)
}

/// Maturity time, steps, cashflows and call prices; nothing where the text refuses.
pub fn grid(settlement: u32, code: u32, leg: &Flows, units: f64, calls: &Calls, settings: (u32, u32)) -> Option<(f64, usize, Vec<f64>, Vec<Option<f64>>)> {
    let g = events(settlement, code, leg, units, calls, settings).ok()?;
    Some((g.maturity_time, g.steps, g.cashflows.iter().map(|c| c.0).collect(), g.calls.iter().map(|c| c.call_price).collect()))
}

/// The tree value of a bond without puts, which the text doesn't know; nothing where the text refuses.
pub fn tree(terms: &reading::treebasedbondpricer::Terms) -> Option<f64> {
    assert!(terms.puts.starts.is_empty(), "the text has no puts");
    let g = events(terms.settlement, terms.code, &terms.leg, terms.units, &terms.calls, terms.settings).ok()?;
    let sigma = sigmas(&terms.sigma);
    let factor = |t: f64| Ok(Tested(or_unwind(curve(terms.settlement, terms.code, &terms.pillars, t, 0))));
    lattice_value(factor, &g, terms.alpha, &sigma, Tested(terms.spread)).ok().map(|v| v.0)
}

fn sigmas(sigma: &Sigma) -> Vec<(f64, Tested)> {
    sigma.times.iter().zip(&sigma.sigmas).map(|(&t, &s)| (t, Tested(s))).collect()
}

/// The nodes of all layers of the text's own tree.
pub fn node_count(terms: &reading::treebasedbondpricer::Terms) -> Option<u64> {
    let g = events(terms.settlement, terms.code, &terms.leg, terms.units, &terms.calls, terms.settings).ok()?;
    let time_step = g.maturity_time / g.steps as f64;
    let variances = transition_variances(terms.alpha, &sigmas(&terms.sigma), g.steps, time_step).ok()?;
    let (layers, _) = lattice_transitions(terms.alpha, &variances, time_step).ok()?;
    let last: BTreeSet<i32> = layers.last()?.values().flat_map(|t| [t.down, t.middle, t.up]).collect();
    Some(layers.iter().map(|l| l.len() as u64).sum::<u64>() + last.len() as u64)
}

struct Curve<'a> {
    settlement: u32,
    code: u32,
    pillars: &'a Pillars,
}

impl InterestRatesTermStructure<Tested> for Curve<'_> {
    fn discount_factor(&self, date: Date) -> Result<Tested> {
        let t = reading::daycount::year_fraction(self.settlement, self.code, date.0);
        Ok(Tested(or_unwind(curve(self.settlement, self.code, self.pillars, t, 0))))
    }
}

/// The straight value; nothing where the text refuses.
pub fn straight(settlement: u32, code: u32, leg: &Flows, spread: f64, pillars: &Pillars) -> Option<f64> {
    let valuation = BondValuation {
        curve: &Curve { settlement, code, pillars },
        cashflows: &paid(settlement, leg, Tested),
        leg: &leg_of(settlement, leg),
        units: 1.0,
        calls: &[],
        reference_date: Date(settlement),
        spread_day_counter: DayCounter(code),
    };
    discounted_value(&valuation, Tested(spread)).ok().map(|v| v.0)
}

/// The rate definition of a day count and two codes; Simple and Continuous are fed Annual.
fn rate(code: u32, compounding: u32, frequency: u32) -> RateDefinition {
    let used = match frequency {
        2 => Frequency::Semiannual,
        3 => Frequency::EveryFourthMonth,
        4 => Frequency::Quarterly,
        6 => Frequency::Bimonthly,
        12 => Frequency::Monthly,
        13 => Frequency::EveryFourthWeek,
        26 => Frequency::Biweekly,
        52 => Frequency::Weekly,
        365 => Frequency::Daily,
        999 => Frequency::OtherFrequency,
        _ => Frequency::Annual,
    };
    let (compounding, frequency) = match compounding {
        0 => (Compounding::Simple, Frequency::Annual),
        1 => (Compounding::Compounded, used),
        2 => (Compounding::Continuous, Frequency::Annual),
        3 => (Compounding::SimpleThenCompounded, used),
        _ => (Compounding::CompoundedThenSimple, used),
    };
    RateDefinition { code, compounding, frequency }
}

/// Price and derivative; nothing where the text refuses.
pub fn price(settlement: u32, code: u32, leg: &Flows, compounding: u32, frequency: u32, y: f64) -> Option<(f64, f64)> {
    yield_price_and_derivative(&paid(settlement, leg, |x| x), Date(settlement), rate(code, compounding, frequency), y).ok()
}

/// The yield; nothing where the text refuses.
pub fn yield_of(settlement: u32, code: u32, leg: &Flows, compounding: u32, frequency: u32, target: f64) -> Option<f64> {
    solve_yield(&paid(settlement, leg, |x| x), Date(settlement), rate(code, compounding, frequency), target).ok()
}

/// The text's own solver over any objective.
pub fn root_of(objective: &mut dyn FnMut(f64) -> f64, lower: f64, upper: f64, lowest: f64) -> Option<f64> {
    bracketed_root(|x| Ok(objective(x)), lower, upper, lowest).ok()
}

/// The spread by the text's own solver over the text's own tree, and how many were tried; nothing where either refuses.
pub fn spread_of(terms: &reading::treebasedbondpricer::Terms, target: f64) -> Option<(f64, u32)> {
    let mut terms = terms.clone();
    let mut tried = 0;
    let mut objective = |spread: f64| {
        tried += 1;
        terms.spread = spread;
        let value = if spread > 1.0 { None } else { tree(&terms) };
        or_unwind(value.ok_or(reading::Refusal { number: 36, place: 0 })) - target
    };
    let spread = root_of(&mut objective, -0.05, 0.10, -1.0)?;
    Some((spread, tried))
}
