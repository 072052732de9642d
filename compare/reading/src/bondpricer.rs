//! Straight value.
use crate::daycount::year_fraction;
use crate::elementary::{exp_at, refused, tested};
use crate::terms::{curve, Input, Leg, Pillars};
use crate::Answer;

/// The straight value entry.
pub fn straight_value(settlement: u32, code: u32, leg: &Leg, spread: f64, pillars: &Pillars) -> Answer {
    let input = Input {
        settlement,
        code,
        leg: Some(leg),
        spread: Some(spread),
        pillars: Some(pillars),
        ..Input::default()
    };
    input.checked()?;
    let t = |x| tested(x, 0);
    let reference = curve(settlement, code, pillars, year_fraction(settlement, code, settlement), 0)?;
    if reference <= 0.0 {
        return refused(25, 0);
    }
    let mut value = 0.0;
    for (&day, &amount) in leg.days.iter().zip(&leg.amounts) {
        if day > settlement {
            let time = year_fraction(settlement, code, day);
            let discount = t(curve(settlement, code, pillars, time, 0)? / reference)?;
            let spread_discount = exp_at(t(spread * -time)?, 0)?;
            value = t(value + t(t(amount * discount)? * spread_discount)?)?;
        }
    }
    Ok(value)
}
