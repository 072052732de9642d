//! The variance of the state over each step.
use alloc::vec::Vec;
use crate::elementary::{exp_at, exp_m1_at, max_at, min_at, tested};
use crate::terms::Sigma;
use crate::{Answer, Outcome};

fn weight(alpha: f64, lower: f64, upper: f64, end: f64, place: u32) -> Answer {
    let t = |x| tested(x, place);
    if alpha.abs() < 1.0e-12 {
        return t(upper - lower);
    }
    let rate = t(-2.0 * alpha)?;
    let left = exp_at(t(rate * t(end - upper)?)?, place)?;
    let grown = exp_m1_at(t(rate * t(upper - lower)?)?, place)?;
    t(t(left * -grown)? / t(2.0 * alpha)?)
}

pub fn piecewise_variance(alpha: f64, sigma: &Sigma, start: f64, end: f64, place: u32) -> Answer {
    let mut variance = 0.0;
    for i in 0..sigma.times.len() {
        let lower = if i == 0 { start } else { max_at(start, sigma.times[i], place)? };
        let upper = match sigma.times.get(i + 1) {
            Some(&next) => min_at(end, next, place)?,
            None => end,
        };
        if upper > lower {
            let w = weight(alpha, lower, upper, end, place)?;
            let square = tested(sigma.sigmas[i] * sigma.sigmas[i], place)?;
            variance = tested(variance + tested(square * w, place)?, place)?;
        }
    }
    Ok(variance)
}

pub fn transition_variances(alpha: f64, sigma: &Sigma, steps: u32, time_step: f64) -> Outcome<Vec<f64>> {
    (0..steps)
        .map(|k| {
            let start = tested(f64::from(k) * time_step, k)?;
            let end = tested(start + time_step, k)?;
            piecewise_variance(alpha, sigma, start, end, k)
        })
        .collect()
}
