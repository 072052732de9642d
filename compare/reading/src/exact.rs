//! sqrt, round, ceil and mul_add of finite doubles, from whole numbers, without the hardware's.

/// A finite double as (−1)^negative × digits × 2^exponent.
struct Parts {
    negative: bool,
    digits: u64,
    exponent: i32,
}

fn parts(x: f64) -> Parts {
    let bits = x.to_bits();
    let field = ((bits >> 52) & 0x7FF) as i32;
    let low = bits & 0x000F_FFFF_FFFF_FFFF;
    Parts {
        negative: bits >> 63 == 1,
        digits: if field == 0 { low } else { low | 1 << 52 },
        exponent: field.max(1) - 1075,
    }
}

/// The double nearest to digits × 2^exponent (ties to even), where `sticky` says that the exact
/// value is a little more. Needs 55 digits or more of precision wherever sticky is set.
fn nearest(negative: bool, digits: u128, exponent: i32, sticky: bool) -> f64 {
    let sign = u64::from(negative) << 63;
    if digits == 0 {
        return f64::from_bits(sign);
    }
    let length = 128 - digits.leading_zeros() as i32;
    // The last digit kept has the weight 2^unit.
    let unit = (exponent + length - 53).max(-1074);
    let drop = unit - exponent;
    let kept = if drop <= 0 {
        (digits as u64) << -drop
    } else if drop > 128 {
        0
    } else if drop == 128 {
        u64::from(digits > 1 << 127 || digits == 1 << 127 && sticky)
    } else {
        let quotient = digits >> drop;
        let rest = digits & ((1 << drop) - 1);
        let half = 1u128 << (drop - 1);
        let up = rest > half || rest == half && (sticky || quotient & 1 == 1);
        (quotient + u128::from(up)) as u64
    };
    // kept × 2^unit: the pattern is (unit + 1074) × 2^52 + kept, carries included.
    let pattern = ((unit + 1074) as u64) * (1 << 52) + kept;
    f64::from_bits(sign | pattern.min(0x7FF0_0000_0000_0000))
}

pub fn sqrt(x: f64) -> f64 {
    let p = parts(x);
    if p.digits == 0 {
        return x;
    }
    // n × 2^(2h) with n of 126 to 128 digits, so the root has 63 or 64.
    let mut shift = (p.digits.leading_zeros() + 64) as i32;
    if (p.exponent - shift) % 2 != 0 {
        shift -= 1;
    }
    let n = u128::from(p.digits) << shift;
    let half = (p.exponent - shift) / 2;
    let mut root: u128 = 0;
    for place in (0..64).rev() {
        let tried = root | 1 << place;
        if tried.checked_mul(tried).is_some_and(|square| square <= n) {
            root = tried;
        }
    }
    nearest(false, root, half, root * root != n)
}

/// The whole part of |x| and whether something, and whether a half or more, is cut off.
fn whole(p: &Parts) -> (u64, bool, bool) {
    if p.exponent >= 0 {
        unreachable!("a value of 2^53 or more is whole")
    }
    let drop = -p.exponent;
    if drop > 63 {
        return (0, p.digits != 0, false);
    }
    let rest = p.digits & ((1u64 << drop) - 1);
    (p.digits >> drop, rest != 0, rest >= 1u64 << (drop - 1))
}

fn signed(negative: bool, n: u64) -> f64 {
    if negative && n != 0 {
        -(n as f64)
    } else {
        n as f64
    }
}

pub fn round(x: f64) -> f64 {
    let p = parts(x);
    if p.exponent >= 0 {
        return x;
    }
    let (n, _, half) = whole(&p);
    signed(p.negative, n + u64::from(half))
}

pub fn ceil(x: f64) -> f64 {
    let p = parts(x);
    if p.exponent >= 0 {
        return x;
    }
    let (n, cut, _) = whole(&p);
    signed(p.negative, n + u64::from(cut && !p.negative))
}

/// A whole number of 2^−2148, wide enough for any product of two doubles.
const WORDS: usize = 68;
type Wide = [u64; WORDS];

fn placed(digits: u128, exponent: i32) -> Wide {
    let at = (exponent + 2148) as usize;
    let (word, bit) = (at / 64, at % 64);
    let mut wide = [0; WORDS];
    let (low, high) = (digits as u64, (digits >> 64) as u64);
    for (i, part) in [low, high].into_iter().enumerate() {
        let spread = u128::from(part) << bit;
        let mut carry = spread;
        let mut j = word + i;
        while carry != 0 {
            let sum = u128::from(wide[j]) + (carry & u128::from(u64::MAX));
            wide[j] = sum as u64;
            carry = (carry >> 64) + (sum >> 64);
            j += 1;
        }
    }
    wide
}

fn add(a: &Wide, b: &Wide) -> Wide {
    let mut out = [0; WORDS];
    let mut carry = 0u128;
    for i in 0..WORDS {
        let sum = u128::from(a[i]) + u128::from(b[i]) + carry;
        out[i] = sum as u64;
        carry = sum >> 64;
    }
    out
}

fn subtract(a: &Wide, b: &Wide) -> Wide {
    let mut out = [0; WORDS];
    let mut borrow = false;
    for i in 0..WORDS {
        let (d, under) = a[i].overflowing_sub(b[i]);
        let (d, again) = d.overflowing_sub(u64::from(borrow));
        out[i] = d;
        borrow = under || again;
    }
    out
}

fn less(a: &Wide, b: &Wide) -> bool {
    a.iter().rev().lt(b.iter().rev())
}

/// Rounds a wide number once; an exact zero is +0.
fn rounded(negative: bool, wide: &Wide) -> f64 {
    let Some(top) = wide.iter().rposition(|&word| word != 0) else {
        return 0.0;
    };
    let low = top.saturating_sub(1);
    let digits = u128::from(wide[low + 1]) << 64 | u128::from(wide[low]);
    let sticky = wide[..low].iter().any(|&word| word != 0);
    nearest(negative, digits, 64 * low as i32 - 2148, sticky)
}

pub fn mul_add(a: f64, b: f64, c: f64) -> f64 {
    let (p, q, r) = (parts(a), parts(b), parts(c));
    let product = placed(
        u128::from(p.digits) * u128::from(q.digits),
        p.exponent + q.exponent,
    );
    let addend = placed(u128::from(r.digits), r.exponent);
    let negative = p.negative != q.negative;
    if negative == r.negative {
        rounded(negative, &add(&product, &addend))
    } else if less(&product, &addend) {
        rounded(r.negative, &subtract(&addend, &product))
    } else {
        rounded(negative, &subtract(&product, &addend))
    }
}

#[cfg(test)]
mod tests {
    use super::*;

    #[test]
    fn examples() {
        assert_eq!(round(-0.5), -1.0);
        assert_eq!(round(-0.25).to_bits(), 0);
        assert_eq!(ceil(-0.5).to_bits(), 0);
        let e = f64::EPSILON;
        assert_eq!(mul_add(1.0 + e, 1.0 - e, -1.0), -(2f64.powi(-104)));
        assert_eq!(mul_add(-0.0, 1.0, -0.0).to_bits(), 0);
        assert_eq!(mul_add(-(2f64.powi(-1000)), 2f64.powi(-1000), 0.0).to_bits(), 1 << 63);
        assert_eq!(sqrt(2.0), 2f64.sqrt());
    }
}
