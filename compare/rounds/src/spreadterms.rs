//! Terms and targets for spread from price.
use crate::random::Random;
use crate::terms;
use crate::tree::{tree_terms, AMPLE, LARGE};
use reading::terms::{Calls, Leg, Sigma};
use reading::treebasedbondpricer::{tree_value, Room, Terms};

/// Two steps under a curve that falls to nearly nothing and rises again, and flows of any size: exp and values overflow at some
/// spreads only.
fn cliff(random: &mut Random, t: &mut Terms) {
    let half = 1 + random.below(10_000) as u32;
    let [middle, last] = [t.settlement + half, t.settlement + 2 * half];
    let low = if random.below(2) == 0 { -20.0 } else { 7.0 };
    let size = 10f64.powf(random.between(low, 11.9));
    t.leg = Leg { days: vec![middle, last], kinds: vec![0, 1], amounts: vec![size * random.between(-0.1, 0.1), size] };
    (t.calls, t.puts) = (Calls::default(), Calls::default());
    t.settings = (366, 2);
    t.sigma = Sigma { times: vec![0.0], sigmas: vec![[0.0, 0.001][random.below(2) as usize]] };
    t.pillars.days = vec![t.settlement, middle, last];
    t.pillars.factors = vec![1.0, 10f64.powf(-random.between(285.0, 305.0)), random.between(0.1, 10.0)];
}

/// Few steps for the most part, since each spread that the reading tries is a whole tree; some of up to 24 or 120, and in a long
/// round some of up to 512. What they are lent at the most comes along.
pub fn spread_terms(random: &mut Random, long: bool) -> (Terms, Room) {
    let mut t = tree_terms(random);
    if random.below(16) == 0 {
        cliff(random, &mut t);
        return (t, AMPLE);
    }
    match random.below(10_000) {
        0 if long => {
            t.settings = (366, 1 + random.below(512) as u32);
            return (t, LARGE);
        }
        1..=99 => {}
        _ => t.settings.1 = t.settings.1.min(1 + random.below(5) as u32),
    }
    (t, AMPLE)
}

const PAST: f64 = f64::from_bits(0x430c_6bf5_2634_0001);
/// Targets at the limits, one past them, and beside 0.
pub const LIMITS: [f64; 14] = [
    f64::NAN,
    f64::INFINITY,
    f64::NEG_INFINITY,
    1e15,
    -1e15,
    PAST,
    -PAST,
    -0.0,
    0.0,
    f64::from_bits(1),
    -f64::from_bits(1),
    f64::from_bits(0x000F_FFFF_FFFF_FFFF),
    f64::MAX,
    -f64::MAX,
];

/// What the tree is worth at some spread, for the most part; or any number; or one at the limits; or above what a curve with a cliff is worth.
pub fn target(random: &mut Random, t: &Terms, room: Room) -> f64 {
    if t.pillars.factors.iter().any(|&factor| 0.0 < factor && factor < 1e-280) && random.below(2) == 0 {
        return 10f64.powf(random.between(0.0, 15.0));
    }
    match random.below(24) {
        0 => return LIMITS[random.below(14) as usize],
        1 => return random.double(),
        2 => return random.between(-50.0, 300.0),
        _ => {}
    }
    let at = Terms { spread: terms::spread(random), ..t.clone() };
    match tree_value(&at, room).0 {
        Ok((value, _)) => value,
        Err(_) => random.between(50.0, 150.0),
    }
}
