//! The straight value against the second reading and, where accepted, the published text.
use crate::faults;
use crate::random::Random;
use crate::tally::{published, same_number, Found, Tally};
use crate::terms;
use reading::bondpricer;
use reading::treebasedbondpricer::Terms;

/// What a run must meet.
const MET: [u32; 10] = [2, 3, 4, 7, 8, 25, 26, 33, 34, 44];

/// One set of terms, against the reading and the text.
pub fn compare(tally: &mut Tally, t: &Terms) {
    let ours = host::straight_value(t.settlement, t.code, &t.leg, t.spread, &t.pillars);
    let theirs = bondpricer::straight_value(t.settlement, t.code, &t.leg, t.spread, &t.pillars);
    let agree = match (ours, theirs) {
        (Ok(a), Ok(b)) => same_number(a, b),
        (a, b) => a == b,
    };
    tally.case(ours.map_or_else(|r| r.number, |_| 0), agree, || format!("{t:?} gives {ours:?}, the reading {theirs:?}"));
    if let (Ok(a), true) = (ours, published::AVAILABLE) {
        let text = published(|| published::straight(t.settlement, t.code, &t.leg, t.spread, &t.pillars));
        tally.case(0, text.is_some_and(|b| same_number(a, b)), || format!("{t:?} gives {a}, the published text {text:?}"));
    }
}

pub fn round(long: bool, seed: u64) -> Found {
    let cases = if long { 1_000_000 } else { 10_000 };
    let mut random = Random(seed);
    let mut tally = Tally::new("straight");
    for _ in 0..cases {
        let mut t = terms::terms(&mut random);
        if random.below(20) == 0 {
            faults::several(&mut random, &mut t);
        }
        if random.below(4) == 0 {
            terms::damage(&mut random, &mut t);
        }
        if random.below(50) == 0 && !t.pillars.factors.is_empty() {
            t.pillars.factors[0] = [5e-324, 1e-305, 1e-300, -0.0, -1.0][random.below(5) as usize];
        }
        compare(&mut tally, &t);
    }
    let missing = tally.missing(&MET);
    tally.done() + missing
}
