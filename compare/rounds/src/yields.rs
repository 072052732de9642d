//! Price from yield and yield from price against the second reading and, where accepted, the published text.
use crate::random::Random;
use crate::tally::{published, same_number, Found, Tally};
use crate::terms;
use reading::bondanalytics::{self, Rate};
use reading::terms::Leg;
use reading::treebasedbondpricer::Terms;
use reading::Outcome;

/// What a run must meet of the input's refusals.
const MET: [u32; 6] = [2, 3, 4, 7, 9, 33];

const FREQUENCIES: [u32; 14] = [1, 2, 3, 4, 6, 12, 13, 26, 52, 365, 999, 0, 5, 7];

fn number<T>(outcome: &Outcome<T>) -> u32 {
    outcome.as_ref().map_or_else(|r| r.number, |_| 0)
}

pub fn price(random: &mut Random, tally: &mut Tally, t: &Terms, rate: Rate) -> Option<f64> {
    let y = match random.below(12) {
        0 => random.double(),
        1 => random.between(-3.0, 60.0),
        _ => random.between(-0.1, 0.3),
    };
    let ours = host::price_from_yield(t.settlement, t.code, &t.leg, rate.compounding, rate.frequency, y);
    let theirs = bondanalytics::price_from_yield(t.settlement, t.code, &t.leg, rate, y);
    let agree = match (ours, theirs) {
        (Ok(a), Ok(b)) => same_number(a.0, b.0) && same_number(a.1, b.1),
        (a, b) => a == b,
    };
    tally.case(number(&ours), agree, || format!("{t:?} {rate:?} {y} gives {ours:?}, the reading {theirs:?}"));
    if let (Ok(a), true) = (ours, published::AVAILABLE) {
        let text = published(|| published::price(t.settlement, t.code, &t.leg, rate.compounding, rate.frequency, y));
        let agree = text.is_some_and(|b| same_number(a.0, b.0) && same_number(a.1, b.1));
        tally.case(0, agree, || format!("{t:?} {rate:?} {y} gives {a:?}, the published text {text:?}"));
    }
    ours.ok().map(|(price, _)| price)
}

fn solve(tally: &mut Tally, t: &Terms, rate: Rate, target: f64) {
    let (ours, evaluations) = host::yield_from_price(t.settlement, t.code, &t.leg, rate.compounding, rate.frequency, target);
    let (theirs, counted) = bondanalytics::yield_from_price(t.settlement, t.code, &t.leg, rate, target);
    let agree = evaluations == counted
        && match (ours, theirs) {
            (Ok(a), Ok(b)) => same_number(a, b),
            (a, b) => a == b,
        };
    tally.case(number(&ours), agree, || {
        format!("{t:?} {rate:?} {target} gives {ours:?} after {evaluations}, the reading {theirs:?} after {counted}")
    });
    if let (Ok(a), true) = (ours, published::AVAILABLE) {
        let text = published(|| published::yield_of(t.settlement, t.code, &t.leg, rate.compounding, rate.frequency, target));
        tally.case(0, text.is_some_and(|b| same_number(a, b)), || format!("{t:?} {rate:?} {target} gives {a}, the published text {text:?}"));
    }
}

/// Document 01's two yield examples: Simple, one flow of 1 at 365 days.
fn examples(tally: &mut Tally) {
    let leg = Leg { days: vec![365], kinds: vec![1], amounts: vec![1.0] };
    for (target, refusal, evaluations) in [(-1.0, 29, 66), (1e6, 28, 7)] {
        let (answer, counted) = host::yield_from_price(0, 0, &leg, 0, 1, target);
        tally.case(number(&answer), number(&answer) == refusal && counted == evaluations, || {
            format!("the example with target {target} gives {answer:?} after {counted}, not {refusal} after {evaluations}")
        });
    }
}

pub fn round(long: bool, seed: u64) -> Found {
    let cases = if long { 1_000_000 } else { 10_000 };
    let mut random = Random(seed);
    let mut prices = Tally::new("price");
    let mut yields = Tally::new("yield");
    examples(&mut yields);
    for _ in 0..cases {
        let mut t = terms::terms(&mut random);
        if random.below(6) == 0 {
            terms::damage(&mut random, &mut t);
        }
        let rate = Rate {
            compounding: if random.below(30) == 0 { 5 } else { random.below(5) as u32 },
            frequency: FREQUENCIES[random.below(14).min(random.below(14)) as usize],
        };
        let price = price(&mut random, &mut prices, &t, rate);
        let target = match (random.below(10), price) {
            (0, _) | (1..=8, None) => random.between(-50.0, 300.0),
            (1..=8, Some(price)) => price,
            _ => random.double(),
        };
        solve(&mut yields, &t, rate, target);
    }
    let missing = prices.missing(&MET) + yields.missing(&MET);
    prices.done() + yields.done() + missing
}
