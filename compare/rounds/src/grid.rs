//! The event grid against the second reading (refusals, places) and, where accepted without puts, the published text.
use crate::faults;
use crate::random::Random;
use crate::tally::{published, same_number, Found, Tally};
use crate::terms;
use reading::bondevents::{self, Grid};
use reading::treebasedbondpricer::Terms;

/// What a run must meet.
const MET: [u32; 11] = [1, 2, 3, 4, 5, 7, 20, 33, 35, 37, 38];

fn same(a: &Grid, b: &Grid) -> bool {
    same_number(a.maturity_time, b.maturity_time)
        && a.steps == b.steps
        && a.cashflows.iter().zip(&b.cashflows).all(|(x, y)| same_number(*x, *y))
        && a.calls.iter().chain(&a.puts).zip(b.calls.iter().chain(&b.puts)).all(|(x, y)| match (x, y) {
            (Some(x), Some(y)) => same_number(*x, *y),
            (None, None) => true,
            _ => false,
        })
}

/// One set of terms, against the reading and the text.
pub fn compare(tally: &mut Tally, t: &Terms) {
    let ours = host::grid(t.settlement, t.code, &t.leg, t.units, &t.calls, &t.puts, t.settings);
    let theirs = bondevents::grid(t.settlement, t.code, &t.leg, t.units, &t.calls, &t.puts, t.settings);
    let agree = match (&ours, &theirs) {
        (Ok(a), Ok(b)) => same(a, b),
        (Err(a), Err(b)) => a == b,
        _ => false,
    };
    tally.case(ours.as_ref().map_or_else(|r| r.number, |_| 0), agree, || format!("{t:?} gives {ours:?}, the reading {theirs:?}"));
    if let (Ok(a), true) = (&ours, published::AVAILABLE && t.puts.starts.is_empty()) {
        let text = published(|| published::grid(t.settlement, t.code, &t.leg, t.units, &t.calls, t.settings));
        let agree = text.is_some_and(|(maturity_time, steps, mut cashflows, mut calls)| {
            cashflows.resize(513, 0.0);
            calls.resize(513, None);
            same(a, &Grid { maturity_time, steps: steps as u32, cashflows, calls, puts: vec![None; 513] })
        });
        tally.case(0, agree, || format!("{t:?} gives {ours:?}, not what the published text gives"));
    }
}

pub fn round(long: bool, seed: u64) -> Found {
    let cases = if long { 1_000_000 } else { 10_000 };
    let mut random = Random(seed);
    let mut tally = Tally::new("grid");
    for _ in 0..cases {
        let mut t = terms::terms(&mut random);
        if random.below(20) == 0 {
            faults::several(&mut random, &mut t);
        }
        if random.below(4) == 0 {
            terms::damage(&mut random, &mut t);
        }
        compare(&mut tally, &t);
    }
    let missing = tally.missing(&MET);
    tally.done() + missing
}
