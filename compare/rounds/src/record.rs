//! A record of the stored sample: 223 words of 64 bits at the places below, floats as their bits.
use reading::terms::{Calls, Pillars, Sigma};
use reading::treebasedbondpricer::Terms;
use reading::Refusal;

pub const WORDS: usize = 223;
pub const FLOWS: usize = 8;
pub const CALLS: usize = 4;
pub const STEPS: usize = 24;

/// Where the lists of calls and puts stand: a count, four starts, four ends, four strikes.
pub const CALL_LIST: usize = 29;
pub const PUT_LIST: usize = 42;
/// Where a rate definition and the number behind it stand, or the arguments of an elementary function, or the lengths of what is lent.
pub const RATE: usize = 85;
pub const ARGUMENTS: usize = 86;
pub const LENGTHS: usize = 89;
/// Where the answers stand: number and place; one or two values, or a value and a node count; steps, tries or a count; then lists.
pub const REFUSAL: usize = 93;
pub const VALUE: usize = 95;
pub const NODES: usize = 96;
pub const COUNT: usize = 97;
pub const LISTS: usize = 98;

pub type Record = [u64; WORDS];

pub fn floats(record: &mut Record, at: usize, values: &[f64]) {
    for (i, x) in values.iter().enumerate() {
        record[at + i] = x.to_bits();
    }
}

pub fn numbers(record: &mut Record, at: usize, values: impl Iterator<Item = u64>) {
    for (i, n) in values.enumerate() {
        record[at + i] = n;
    }
}

/// A list of calls or puts.
pub fn entries(record: &mut Record, at: usize, list: &Calls) {
    record[at] = list.starts.len() as u64;
    numbers(record, at + 1, list.starts.iter().map(|&n| u64::from(n)));
    numbers(record, at + 1 + CALLS, list.ends.iter().map(|&n| u64::from(n)));
    floats(record, at + 1 + 2 * CALLS, &list.strikes);
}

/// The inputs of any entry.
pub fn inputs(kind: u64, t: &Terms) -> Record {
    let mut r = [0; WORDS];
    (r[0], r[1], r[2]) = (kind, u64::from(t.settlement), u64::from(t.code));
    r[3] = t.leg.days.len() as u64;
    numbers(&mut r, 4, t.leg.days.iter().map(|&n| u64::from(n)));
    numbers(&mut r, 12, t.leg.kinds.iter().map(|&n| u64::from(n)));
    floats(&mut r, 20, &t.leg.amounts);
    floats(&mut r, 28, &[t.units]);
    entries(&mut r, CALL_LIST, &t.calls);
    entries(&mut r, PUT_LIST, &t.puts);
    (r[55], r[56]) = (u64::from(t.settings.0), u64::from(t.settings.1));
    floats(&mut r, 57, &[t.alpha]);
    floats(&mut r, 67, &[t.spread]);
    market(&mut r, &t.sigma, &t.pillars);
    r
}

/// Sigma and the curve.
pub fn market(record: &mut Record, sigma: &Sigma, pillars: &Pillars) {
    record[58] = sigma.times.len() as u64;
    floats(record, 59, &sigma.times);
    floats(record, 63, &sigma.sigmas);
    record[68] = pillars.days.len() as u64;
    numbers(record, 69, pillars.days.iter().map(|&n| u64::from(n)));
    floats(record, 77, &pillars.factors);
}

pub fn refused(mut r: Record, refusal: Refusal) -> Record {
    (r[REFUSAL], r[REFUSAL + 1]) = (u64::from(refusal.number), u64::from(refusal.place));
    r
}
