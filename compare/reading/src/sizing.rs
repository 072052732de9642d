//! How long the slices of the tree value must be: the layers as sorted sets, by their middles alone.
use crate::bondevents::bond_event_grid;
use crate::elementary::{exp_at, round_at, sqrt_at, tested};
use crate::hullwhite::transition_variances;
use crate::terms::Calls;
use crate::treebasedbondpricer::{input, Room, Terms};
use crate::{Outcome, Refusal};
use alloc::collections::BTreeSet;
use alloc::{vec, vec::Vec};

/// The lengths, and the nodes of the tree.
#[derive(Clone, Copy, Debug, PartialEq, Eq)]
pub struct Sizes {
    pub nodes: u64,
    pub probabilities: u64,
    pub row: u64,
    pub count: u64,
}

impl Sizes {
    /// Slices of just these lengths.
    pub fn room(&self) -> Room {
        let (nodes, probabilities, row) = (self.nodes as usize, self.probabilities as usize, self.row as usize);
        Room { nodes, probabilities, first: row, second: row }
    }
}

fn refuse<T>(number: u32, place: u32) -> Outcome<T> {
    Err(Refusal { number, place })
}

fn middle(node: i32, spacing: f64, decay: f64, new: f64, k: u32) -> Outcome<i32> {
    let state = tested(spacing * f64::from(node), k)?;
    let expectation = tested(state * decay, k)?;
    let middle = round_at(tested(expectation / new, k)?, k)?;
    if middle.abs() > 1e6 {
        return refuse(23, k);
    }
    Ok(middle as i32)
}

/// The layers of a tree that isn't flat. Two neighbours must fit the slice together.
fn curved(alpha: f64, time_step: f64, variances: &[f64], slice: usize) -> Outcome<Vec<usize>> {
    let decay = exp_at(tested(-alpha * time_step, 0)?, 0)?;
    let mut spacing = sqrt_at(tested(variances[0] * 3.0, 0)?, 0)?;
    if slice < 1 {
        return refuse(21, 0);
    }
    let mut layer = BTreeSet::from([0]);
    let mut widths = vec![1];
    for (k, &variance) in variances.iter().enumerate() {
        let k = k as u32;
        if variance <= f64::EPSILON {
            return refuse(22, k);
        }
        let new = sqrt_at(tested(variance * 3.0, k)?, k)?;
        let mut next = BTreeSet::new();
        for &node in &layer {
            let middle = middle(node, spacing, decay, new, k)?;
            next.extend(middle - 1..=middle + 1);
        }
        if layer.len() + next.len() > slice {
            return refuse(21, k + 1);
        }
        widths.push(next.len());
        (layer, spacing) = (next, new);
    }
    Ok(widths)
}

fn flat(steps: u32, slice: usize) -> Outcome<Vec<usize>> {
    match slice {
        0 => refuse(21, 0),
        1 => refuse(21, 1),
        _ => Ok(vec![1; steps as usize + 1]),
    }
}

/// The grid's T and steps, which no call or put changes; then variances and layers.
fn widths(terms: &Terms, slice: usize) -> Outcome<Vec<usize>> {
    let none = Calls::default();
    let grid = bond_event_grid(terms.settlement, terms.code, &terms.leg, terms.units, &none, &none, terms.settings)?;
    let time_step = tested(grid.maturity_time / f64::from(grid.steps), 0)?;
    let variances = transition_variances(terms.alpha, &terms.sigma, grid.steps, time_step)?;
    if variances.iter().all(|&v| v <= f64::EPSILON) {
        flat(grid.steps, slice)
    } else {
        curved(terms.alpha, time_step, &variances, slice)
    }
}

/// The sizing entry over a node slice of so many places: the lengths or the refusal, and whether it was found in the input.
pub fn sizes(terms: &Terms, slice: usize) -> (Outcome<Sizes>, bool) {
    if let Err(refusal) = input(terms).checked() {
        return (Err(refusal), true);
    }
    let sized = widths(terms, slice).map(|widths| {
        let count = widths.iter().sum::<usize>() as u64;
        let row = widths.into_iter().fold(0, usize::max) as u64;
        Sizes { nodes: 2 * count, probabilities: 3 * count, row, count }
    });
    (sized, false)
}
