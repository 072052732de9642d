//! What every entry of a bond takes of its terms, in the order of the C functions.

/// Calls an entry: what it takes before the terms, the terms, what it takes where the tree value takes the spread, and what comes behind the pillars.
macro_rules! with_terms {
    ($entry:ident, [$($before:expr),*], $terms:ident, [$($spread:expr),*], [$($behind:expr),* $(,)?]) => {
        crate::c::$entry(
            $($before,)*
            $terms.settlement,
            $terms.code,
            $terms.leg.days.as_ptr(),
            $terms.leg.days.len(),
            $terms.leg.kinds.as_ptr(),
            $terms.leg.kinds.len(),
            $terms.leg.amounts.as_ptr(),
            $terms.leg.amounts.len(),
            $terms.units,
            $terms.calls.starts.as_ptr(),
            $terms.calls.starts.len(),
            $terms.calls.ends.as_ptr(),
            $terms.calls.ends.len(),
            $terms.calls.strikes.as_ptr(),
            $terms.calls.strikes.len(),
            $terms.puts.starts.as_ptr(),
            $terms.puts.starts.len(),
            $terms.puts.ends.as_ptr(),
            $terms.puts.ends.len(),
            $terms.puts.strikes.as_ptr(),
            $terms.puts.strikes.len(),
            $terms.settings.0,
            $terms.settings.1,
            $terms.alpha,
            $terms.sigma.times.as_ptr(),
            $terms.sigma.times.len(),
            $terms.sigma.sigmas.as_ptr(),
            $terms.sigma.sigmas.len(),
            $($spread,)*
            $terms.pillars.days.as_ptr(),
            $terms.pillars.days.len(),
            $terms.pillars.factors.as_ptr(),
            $terms.pillars.factors.len(),
            $($behind),*
        )
    };
}
pub(crate) use with_terms;
