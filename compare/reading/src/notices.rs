//! Call notices, and the call list of those that stand.
use crate::terms::{Calls, Input};
use crate::{Outcome, Refusal};
use alloc::collections::{BTreeMap, BTreeSet};
use alloc::vec;
use alloc::vec::Vec;

#[derive(Clone, Debug, Default)]
pub struct Notices {
    pub series: Vec<u32>,
    pub versions: Vec<u32>,
    pub actions: Vec<u32>,
    pub calls: Calls,
}

fn refused(number: u32, place: usize) -> Outcome<()> {
    Err(Refusal { number, place: place as u32 })
}

/// Whether the call fields of one notice pass the checks of a call list that has no other entry.
fn call_checked(calls: &Calls, i: usize) -> Outcome<()> {
    let alone = Calls { starts: vec![calls.starts[i]], ends: vec![calls.ends[i]], strikes: vec![calls.strikes[i]] };
    Input { calls: Some(&alone), ..Input::default() }.checked()
}

fn checked(n: &Notices) -> Outcome<()> {
    let count = n.series.len();
    let lengths = [n.versions.len(), n.actions.len(), n.calls.starts.len(), n.calls.ends.len(), n.calls.strikes.len()];
    if lengths != [count; 5] {
        return refused(2, 0);
    }
    if count > 256 {
        return refused(41, 0);
    }
    let ranged = |i: usize| (1..=64).contains(&n.series[i]) && (1..=65_535).contains(&n.versions[i]) && matches!(n.actions[i], 0 | 1);
    if let Some(i) = (0..count).find(|&i| !ranged(i)) {
        return refused(42, i);
    }
    let mut met = BTreeSet::new();
    if let Some(i) = (0..count).find(|&i| !met.insert((n.series[i], n.versions[i]))) {
        return refused(43, i);
    }
    // Each set notice by itself; the lowest number, and of that the lowest index.
    let set = (0..count).filter(|&i| n.actions[i] == 0);
    match set.filter_map(|i| call_checked(&n.calls, i).err().map(|r| (r.number, i))).min() {
        Some((number, i)) => refused(number, i),
        None => Ok(()),
    }
}

/// The call list: of each series, rising, the highest version, unless that is withdrawn.
pub fn call_list(n: &Notices) -> Outcome<Calls> {
    checked(n)?;
    let mut standing: BTreeMap<u32, BTreeMap<u32, usize>> = BTreeMap::new();
    for (i, (&series, &version)) in n.series.iter().zip(&n.versions).enumerate() {
        standing.entry(series).or_default().insert(version, i);
    }
    let mut calls = Calls::default();
    for versions in standing.values() {
        let (_, &i) = versions.last_key_value().unwrap();
        if n.actions[i] == 0 {
            calls.starts.push(n.calls.starts[i]);
            calls.ends.push(n.calls.ends[i]);
            calls.strikes.push(n.calls.strikes[i]);
        }
    }
    Ok(calls)
}
