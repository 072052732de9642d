//! Price from yield, yield from price, spread from price and the bracketed root.
use crate::daycount::year_fraction;
use crate::elementary::{exp_at, max_at, midpoint_at, mul_add_at, powf_at, tested};
use crate::terms::{Input, Leg};
use crate::treebasedbondpricer::{self, tree_value, Room, Terms};
use crate::{Answer, Outcome, Refusal};

#[derive(Clone, Copy, Debug)]
pub struct Rate {
    pub compounding: u32,
    pub frequency: u32,
}

fn refuse<T>(number: u32) -> Outcome<T> {
    Err(Refusal { number, place: 0 })
}

fn simple(rate: f64, time: f64) -> Outcome<(f64, f64)> {
    let t = |x| tested(x, 0);
    let compound = mul_add_at(rate, time, 1.0, 0)?;
    if compound <= 0.0 {
        return refuse(28);
    }
    Ok((t(1.0 / compound)?, t(-time / t(compound * compound)?)?))
}

fn compounded(rate: f64, time: f64, frequency: f64) -> Outcome<(f64, f64)> {
    let t = |x| tested(x, 0);
    let base = t(t(rate / frequency)? + 1.0)?;
    if base <= 0.0 {
        return refuse(28);
    }
    let discount = powf_at(base, t(-frequency * time)?, 0)?;
    Ok((discount, t(t(-time * discount)? / base)?))
}

fn discount_and_derivative(y: f64, time: f64, rate: Rate) -> Outcome<(f64, f64)> {
    let frequency = f64::from(rate.frequency);
    match rate.compounding {
        0 => simple(y, time),
        1 => compounded(y, time, frequency),
        2 => {
            let discount = exp_at(tested(-y * time, 0)?, 0)?;
            Ok((discount, tested(-time * discount, 0)?))
        }
        3 if time <= 1.0 / frequency => simple(y, time),
        4 if time > 1.0 / frequency => simple(y, time),
        _ => compounded(y, time, frequency),
    }
}

fn price_and_derivative(settlement: u32, code: u32, leg: &Leg, rate: Rate, y: f64) -> Outcome<(f64, f64)> {
    let mut sums = (0.0, 0.0);
    for (&day, &amount) in leg.days.iter().zip(&leg.amounts) {
        if day > settlement {
            let (discount, slope) = discount_and_derivative(y, year_fraction(settlement, code, day), rate)?;
            sums = (mul_add_at(amount, discount, sums.0, 0)?, mul_add_at(amount, slope, sums.1, 0)?);
        }
    }
    Ok(sums)
}

fn input<'a>(settlement: u32, code: u32, leg: &'a Leg, rate: Rate) -> Input<'a> {
    Input { settlement, code, leg: Some(leg), rate: Some((rate.compounding, rate.frequency)), ..Input::default() }
}

/// The price from yield entry: price and derivative.
pub fn price_from_yield(settlement: u32, code: u32, leg: &Leg, rate: Rate, y: f64) -> Outcome<(f64, f64)> {
    Input { given_yield: Some(y), ..input(settlement, code, leg, rate) }.checked()?;
    price_and_derivative(settlement, code, leg, rate, y)
}

/// What a search did: its evaluations, one that refuses included, and the bracket that it ended with.
#[derive(Clone, Copy, Debug, Default)]
pub struct Search {
    pub tried: u32,
    pub lower: f64,
    pub upper: f64,
}

/// bracketed_root.
pub fn bracketed_root(objective: &mut dyn FnMut(f64) -> Answer, lower: f64, upper: f64, lowest: f64, search: &mut Search) -> Answer {
    let Search { tried, lower: low, upper: high } = search;
    let mut evaluate = |x: f64| {
        *tried += 1;
        objective(x)
    };
    (*low, *high) = (max_at(lower, lowest, 0)?, upper);
    let mut at_lower = evaluate(*low)?;
    let mut at_upper = evaluate(*high)?;
    let bracketed = |a: f64, b: f64| a >= 0.0 && b <= 0.0;
    for _ in 0..64 {
        if bracketed(at_lower, at_upper) {
            break;
        }
        if at_lower < 0.0 {
            let candidate = max_at(mul_add_at(2.0, *low, -0.01, 0)?, lowest, 0)?;
            if tested(candidate - *low, 0)?.abs() < f64::EPSILON {
                break;
            }
            *low = candidate;
            at_lower = evaluate(*low)?;
        }
        if at_upper > 0.0 {
            *high = mul_add_at(2.0, *high, 0.01, 0)?;
            at_upper = evaluate(*high)?;
        }
    }
    if at_lower.abs() < 1e-12 {
        return Ok(*low);
    }
    if at_upper.abs() < 1e-12 {
        return Ok(*high);
    }
    if !bracketed(at_lower, at_upper) {
        return refuse(29);
    }
    for _ in 0..256 {
        let middle = midpoint_at(*low, *high, 0)?;
        let at_middle = evaluate(middle)?;
        if at_middle.abs() < 1e-12 || tested(*high - *low, 0)?.abs() < 1e-14 {
            return Ok(middle);
        }
        if at_middle > 0.0 {
            *low = middle;
        } else {
            *high = middle;
        }
    }
    refuse(30)
}

/// The yield from price entry, with the evaluations.
pub fn yield_from_price(settlement: u32, code: u32, leg: &Leg, rate: Rate, target: f64) -> (Answer, u32) {
    let checked = Input { target: Some(target), ..input(settlement, code, leg, rate) }.checked();
    if let Err(refusal) = checked {
        return (Err(refusal), 0);
    }
    let lowest = match rate.compounding {
        1 | 3 | 4 => -0.999_999 * f64::from(rate.frequency),
        _ => -10.0,
    };
    let mut search = Search::default();
    let mut objective = |y: f64| tested(price_and_derivative(settlement, code, leg, rate, y)?.0 - target, 0);
    let root = bracketed_root(&mut objective, -0.05, 0.10, lowest, &mut search);
    (root, search.tried)
}

/// What spread from price answers: the spread or the refusal, how it was searched, and whether the input was refused.
#[derive(Clone, Copy, Debug)]
pub struct Solved {
    pub spread: Answer,
    pub search: Search,
    pub in_the_input: bool,
}

/// Tree value less target at a spread that is tried: a whole value call each time. Above 1 it is 36.
pub fn difference(terms: &mut Terms, room: Room, target: f64, spread: f64) -> Answer {
    if spread > 1.0 {
        return refuse(36);
    }
    terms.spread = spread;
    let (value, _) = tree_value(terms, room).0?;
    tested(value - target, 0)
}

/// The spread from price entry; the spread that the terms hold isn't read. `tried` is told each spread and the difference there.
pub fn spread_from_price(terms: &Terms, target: f64, room: Room, tried: &mut dyn FnMut(f64, Answer)) -> Solved {
    let checked = Input { spread: None, target: Some(target), ..treebasedbondpricer::input(terms) }.checked();
    let mut search = Search::default();
    if let Err(refusal) = checked {
        return Solved { spread: Err(refusal), search, in_the_input: true };
    }
    let mut terms = terms.clone();
    let mut objective = |spread: f64| {
        let answer = difference(&mut terms, room, target, spread);
        tried(spread, answer);
        answer
    };
    let spread = bracketed_root(&mut objective, -0.05, 0.10, -1.0, &mut search);
    Solved { spread, search, in_the_input: false }
}
