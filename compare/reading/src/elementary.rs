//! Document 01's elementary functions, operation by operation, each result tested.
//!
//! The functions whose names end in `_at` take a place and are what other rules call on the way.
//! The others are the entries: an argument that isn't finite is 4, and the place is 0.
use crate::{exact, Answer, Refusal};

const INVERSE_LN2: f64 = f64::from_bits(0x3FF7_1547_652B_82FE);
const HI: f64 = f64::from_bits(0x3FE6_2E42_FEE0_0000);
const LO: f64 = f64::from_bits(0x3DEA_39EF_3579_3C76);

#[inline]
pub fn refused(number: u32, place: u32) -> Answer {
    Err(Refusal { number, place })
}

/// The result of an operation, or 27.
#[inline]
pub fn tested(x: f64, place: u32) -> Answer {
    if x.is_finite() {
        Ok(x)
    } else {
        refused(27, place)
    }
}

pub fn sqrt_at(x: f64, place: u32) -> Answer {
    let x = tested(x, place)?;
    if x < 0.0 {
        return refused(26, place);
    }
    tested(exact::sqrt(x), place)
}

pub fn round_at(x: f64, place: u32) -> Answer {
    Ok(exact::round(tested(x, place)?))
}

pub fn ceil_at(x: f64, place: u32) -> Answer {
    Ok(exact::ceil(tested(x, place)?))
}

pub fn max_at(a: f64, b: f64, place: u32) -> Answer {
    let (a, b) = (tested(a, place)?, tested(b, place)?);
    Ok(if b > a { b } else { a })
}

pub fn min_at(a: f64, b: f64, place: u32) -> Answer {
    let (a, b) = (tested(a, place)?, tested(b, place)?);
    Ok(if b < a { b } else { a })
}

/// 2^k, k within the exponents of normal numbers.
#[inline]
fn power_of_two(k: i64) -> f64 {
    f64::from_bits(((k + 1023) as u64) << 52)
}

#[inline]
fn series(last: u32, r: f64, place: u32) -> Answer {
    let mut p = 1.0;
    for n in (last..=13).rev() {
        let t = r * p;
        let q = t / f64::from(n);
        p = 1.0 + q;
    }
    // Infinities and NaN stay what they are through the terms, so that one test finds them all.
    tested(p, place)
}

#[inline]
pub fn exp_at(x: f64, place: u32) -> Answer {
    let x = tested(x, place)?;
    if x > 700.0 {
        return refused(26, place);
    }
    if x < -700.0 {
        return Ok(0.0);
    }
    let k = round_at(tested(x * INVERSE_LN2, place)?, place)?;
    let d = tested(x - tested(k * HI, place)?, place)?;
    let r = tested(d - tested(k * LO, place)?, place)?;
    let p = series(1, r, place)?;
    tested(p * power_of_two(k as i64), place)
}

#[inline]
pub fn exp_m1_at(x: f64, place: u32) -> Answer {
    let x = tested(x, place)?;
    if x.abs() < 0.5 {
        let p = series(2, x, place)?;
        tested(x * p, place)
    } else {
        tested(exp_at(x, place)? - 1.0, place)
    }
}

#[inline]
pub fn ln_at(x: f64, place: u32) -> Answer {
    let x = tested(x, place)?;
    if x < f64::MIN_POSITIVE {
        return refused(26, place);
    }
    // x = m × 2^k with 1 ≤ m < 2 first, then m halved where it is 1.5 or more.
    let bits = x.to_bits();
    let mut k = ((bits >> 52) as i64) - 1023;
    let mut m = f64::from_bits((bits & 0x000F_FFFF_FFFF_FFFF) | 0x3FF0_0000_0000_0000);
    if m >= 1.5 {
        m *= 0.5;
        k += 1;
    }
    let s = tested(tested(m - 1.0, place)? / tested(m + 1.0, place)?, place)?;
    let z = tested(s * s, place)?;
    let mut q = 1.0 / 21.0;
    for j in (0..=9).rev() {
        q = q * z + 1.0 / f64::from(2 * j + 1);
    }
    let q = tested(q, place)?;
    let k = k as f64;
    let high = tested(k * HI, place)?;
    let twice = tested(2.0 * s, place)?;
    let tail = tested(tested(twice * q, place)? + tested(k * LO, place)?, place)?;
    tested(high + tail, place)
}

#[inline]
pub fn powf_at(b: f64, y: f64, place: u32) -> Answer {
    exp_at(tested(y * ln_at(b, place)?, place)?, place)
}

pub fn mul_add_at(a: f64, b: f64, c: f64, place: u32) -> Answer {
    let (a, b, c) = (tested(a, place)?, tested(b, place)?, tested(c, place)?);
    tested(exact::mul_add(a, b, c), place)
}

#[inline]
pub fn midpoint_at(a: f64, b: f64, place: u32) -> Answer {
    tested(tested(a + b, place)? / 2.0, place)
}

macro_rules! entries {
    ($($name:ident = $inner:ident($($argument:ident),+);)+) => {$(
        #[inline]
        pub fn $name($($argument: f64),+) -> Answer {
            $(if !$argument.is_finite() {
                return refused(4, 0);
            })+
            $inner($($argument,)+ 0)
        }
    )+};
}

entries! {
    sqrt = sqrt_at(x);
    round = round_at(x);
    ceil = ceil_at(x);
    max = max_at(a, b);
    min = min_at(a, b);
    exp = exp_at(x);
    exp_m1 = exp_m1_at(x);
    ln = ln_at(x);
    powf = powf_at(b, y);
    mul_add = mul_add_at(a, b, c);
    midpoint = midpoint_at(a, b);
}
