//! The C interface, declared as in include/gutirapeo.h, behind safe functions.
mod books;
mod c;
mod cbooks;
mod notices;
mod sheets;
mod sizing;
mod tables;
mod tree;
mod withterms;

pub use books::book_value;
pub use notices::call_list;
pub use sheets::closing_line;
pub use sizing::sizes;
pub use tables::spread_table;
pub use tree::{spread_from_price, tree_value, Lent};

use reading::bondevents::Grid;
use reading::terms::{Calls, Leg, Pillars};
use reading::{Answer, Outcome, Refusal};

/// Turns what a call wrote into an answer. A refusal must leave +0, and an accepted call place 0.
fn answer(number: u32, place: u32, value: f64) -> Answer {
    if number == 0 {
        assert_eq!(place, 0, "an accepted call wrote a place");
        Ok(value)
    } else {
        assert_eq!(value.to_bits(), 0, "refusal {number} left a value");
        Err(Refusal { number, place })
    }
}

macro_rules! wrapped {
    ($($name:ident = $exported:ident($($argument:ident),+);)+) => {$(
        #[inline]
        pub fn $name($($argument: f64),+) -> Answer {
            let mut place = 0xdead_beef;
            let mut value = f64::from_bits(0x7ff8_dead_beef_0001);
            let number = unsafe { c::$exported($($argument,)+ &mut place, &mut value) };
            answer(number, place, value)
        }
    )+};
}

wrapped! {
    sqrt = gutirapeo_sqrt(x);
    round = gutirapeo_round(x);
    ceil = gutirapeo_ceil(x);
    max = gutirapeo_max(a, b);
    min = gutirapeo_min(a, b);
    exp = gutirapeo_exp(x);
    exp_m1 = gutirapeo_exp_m1(x);
    ln = gutirapeo_ln(x);
    powf = gutirapeo_powf(b, y);
    mul_add = gutirapeo_mul_add(a, b, c);
    midpoint = gutirapeo_midpoint(a, b);
}

/// A slot filled with a pattern, so that a call that doesn't write it shows.
const PATTERN: f64 = f64::from_bits(0x7ff8_dead_beef_0001);

/// The prices of the steps that are marked; those that aren't must have none.
fn marked(marks: &[u8; 513], prices: &[f64; 513]) -> Vec<Option<f64>> {
    let of = |(&mark, &price): (&u8, &f64)| match mark {
        0 => {
            assert_eq!(price.to_bits(), 0, "an unmarked step has a price");
            None
        }
        _ => Some(price),
    };
    marks.iter().zip(prices).map(of).collect()
}

/// The grid entry.
pub fn grid(settlement: u32, code: u32, leg: &Leg, units: f64, calls: &Calls, puts: &Calls, settings: (u32, u32)) -> Outcome<Grid> {
    let (mut place, mut maturity_time, mut steps) = (0xdead_beef, PATTERN, 0xdead_beef);
    let mut cashflows = [PATTERN; 513];
    let (mut marks, mut prices, mut put_marks, mut put_prices) = ([9u8; 513], [PATTERN; 513], [9u8; 513], [PATTERN; 513]);
    let number = unsafe {
        c::gutirapeo_grid(
            settlement,
            code,
            leg.days.as_ptr(),
            leg.days.len(),
            leg.kinds.as_ptr(),
            leg.kinds.len(),
            leg.amounts.as_ptr(),
            leg.amounts.len(),
            units,
            calls.starts.as_ptr(),
            calls.starts.len(),
            calls.ends.as_ptr(),
            calls.ends.len(),
            calls.strikes.as_ptr(),
            calls.strikes.len(),
            puts.starts.as_ptr(),
            puts.starts.len(),
            puts.ends.as_ptr(),
            puts.ends.len(),
            puts.strikes.as_ptr(),
            puts.strikes.len(),
            settings.0,
            settings.1,
            &mut place,
            &mut maturity_time,
            &mut steps,
            &mut cashflows,
            &mut marks,
            &mut prices,
            &mut put_marks,
            &mut put_prices,
        )
    };
    if number != 0 {
        assert!(maturity_time.to_bits() == 0 && steps == 0, "a refused grid is not zero");
        let mut numbers = cashflows.iter().chain(&prices).chain(&put_prices);
        assert!(numbers.all(|x| x.to_bits() == 0) && marks.iter().chain(&put_marks).all(|&m| m == 0), "a refused grid is not zero");
        return Err(Refusal { number, place });
    }
    assert_eq!(place, 0, "an accepted call wrote a place");
    Ok(Grid { maturity_time, steps, cashflows: cashflows.to_vec(), calls: marked(&marks, &prices), puts: marked(&put_marks, &put_prices) })
}

/// The straight value entry.
pub fn straight_value(settlement: u32, code: u32, leg: &Leg, spread: f64, pillars: &Pillars) -> Answer {
    let (mut place, mut value) = (0xdead_beef, PATTERN);
    let number = unsafe {
        c::gutirapeo_straight_value(
            settlement,
            code,
            leg.days.as_ptr(),
            leg.days.len(),
            leg.kinds.as_ptr(),
            leg.kinds.len(),
            leg.amounts.as_ptr(),
            leg.amounts.len(),
            spread,
            pillars.days.as_ptr(),
            pillars.days.len(),
            pillars.factors.as_ptr(),
            pillars.factors.len(),
            &mut place,
            &mut value,
        )
    };
    answer(number, place, value)
}

/// The price from yield entry: price and derivative.
pub fn price_from_yield(settlement: u32, code: u32, leg: &Leg, compounding: u32, frequency: u32, y: f64) -> Outcome<(f64, f64)> {
    let (mut place, mut price, mut derivative) = (0xdead_beef, PATTERN, PATTERN);
    let number = unsafe {
        c::gutirapeo_price_from_yield(
            settlement,
            code,
            leg.days.as_ptr(),
            leg.days.len(),
            leg.kinds.as_ptr(),
            leg.kinds.len(),
            leg.amounts.as_ptr(),
            leg.amounts.len(),
            compounding,
            frequency,
            y,
            &mut place,
            &mut price,
            &mut derivative,
        )
    };
    if number != 0 {
        assert_eq!(derivative.to_bits(), 0, "refusal {number} left a derivative");
    }
    answer(number, place, price).map(|price| (price, derivative))
}

/// The yield from price entry, with the evaluations.
pub fn yield_from_price(settlement: u32, code: u32, leg: &Leg, compounding: u32, frequency: u32, target: f64) -> (Answer, u32) {
    let (mut place, mut value, mut evaluations) = (0xdead_beef, PATTERN, 0xdead_beef);
    let number = unsafe {
        c::gutirapeo_yield_from_price(
            settlement,
            code,
            leg.days.as_ptr(),
            leg.days.len(),
            leg.kinds.as_ptr(),
            leg.kinds.len(),
            leg.amounts.as_ptr(),
            leg.amounts.len(),
            compounding,
            frequency,
            target,
            &mut place,
            &mut value,
            &mut evaluations,
        )
    };
    (answer(number, place, value), evaluations)
}
