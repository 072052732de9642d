//! Month ends, one after the other: settlement from the end of January to the beginning of March in leap and common years and around a
//! new year, maturity on each of the days behind it, under every code; the grid, the tree value, the straight value and the price.
use crate::random::Random;
use crate::tally::{Found, Tally};
use crate::terms::pick;
use crate::{grid, straight, tree, yields};
use reading::bondanalytics::Rate;
use reading::terms::{Calls, Leg, Pillars, Sigma};
use reading::treebasedbondpricer::Terms;

/// 26 January of 1900, 2000, 2024, 2025, 2026 and 2100, and 26 December 2025.
const FIRST: [u32; 7] = [25, 36_549, 45_315, 45_681, 46_046, 73_074, 46_015];
const SETTLEMENTS: u32 = 40;
const MATURITIES: u32 = 45;

/// A day before maturity, or that of a flow beside it, or the day after settlement.
fn call_day(random: &mut Random, settlement: u32, maturity: u32) -> u32 {
    let any = settlement + random.below(u64::from(maturity - settlement)) as u32;
    pick(random, &[settlement, settlement + 1, maturity - 1, any, any])
}

/// Redemptions on two days in a row, a coupon, a discrete call and a window, and pillars of which two may be neighbours.
fn terms(random: &mut Random, settlement: u32, code: u32, maturity: u32) -> Terms {
    let coupon = settlement + random.below(u64::from(maturity - settlement)) as u32;
    let mut days = vec![coupon, maturity - 1, maturity];
    days.sort_unstable();
    let (call, start) = (call_day(random, settlement, maturity), call_day(random, settlement, maturity));
    let window = start.saturating_sub(random.below(2) as u32);
    // The curve ends a day too early for one in sixteen, at maturity's own time where that is a 31st.
    let last = if random.below(16) == 0 { maturity - 1 } else { maturity + random.below(3) as u32 };
    let mut pillars = vec![settlement, call_day(random, settlement, maturity), last];
    if random.below(8) == 0 {
        pillars.push(maturity.max(settlement + 2) - 1);
    }
    pillars.sort_unstable();
    pillars.dedup();
    Terms {
        settlement,
        code,
        leg: Leg { days, kinds: vec![pick(random, &[0, 1]), 1, 1], amounts: vec![5.0, 40.0, 60.0] },
        units: 100.0,
        calls: Calls { starts: vec![call, window], ends: vec![call, start + random.below(3) as u32], strikes: vec![99.0, 98.5] },
        puts: Calls::default(),
        settings: (pick(random, &[12, 52, 360, 365]), 1 + random.below(6) as u32),
        alpha: 0.05,
        sigma: Sigma { times: vec![0.0], sigmas: vec![0.01] },
        spread: 0.01,
        pillars: Pillars { factors: pillars.iter().map(|&day| 1.0 - f64::from(day - settlement) * 1e-4).collect(), days: pillars },
    }
}

pub fn round(_: bool, seed: u64) -> Found {
    let mut random = Random(seed);
    let [mut grids, mut trees, mut texts] = ["ends, grid", "ends, tree", "ends, text"].map(Tally::new);
    let [mut straights, mut prices] = ["ends, flat", "ends, price"].map(Tally::new);
    for (first, settled, matured, code) in FIRST
        .into_iter()
        .flat_map(|first| (0..SETTLEMENTS).map(move |settled| (first, settled)))
        .flat_map(|(first, settled)| (1..=MATURITIES).map(move |matured| (first, settled, matured)))
        .flat_map(|(first, settled, matured)| (0..=2).map(move |code| (first, settled, matured, code)))
    {
        let t = terms(&mut random, first + settled, code, first + settled + matured);
        grid::compare(&mut grids, &t);
        let _ = tree::compare(&mut trees, &mut texts, &t, tree::AMPLE);
        straight::compare(&mut straights, &t);
        let rate = Rate { compounding: random.below(5) as u32, frequency: pick(&mut random, &[1, 2, 4, 12, 365]) };
        let _ = yields::price(&mut random, &mut prices, &t, rate);
    }
    let missing = grids.missing(&[20, 35]) + trees.missing(&[8, 20, 34]) + straights.missing(&[8, 34]);
    [grids, trees, texts, straights, prices].into_iter().map(Tally::done).sum::<Found>() + missing
}
