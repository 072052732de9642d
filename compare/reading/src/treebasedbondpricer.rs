//! The trinomial tree: layers with gaps, fit, walk back.
use crate::bondevents::{bond_event_grid, Grid};
use crate::elementary::{exp_at, ln_at, max_at, min_at, round_at, sqrt_at, tested};
use crate::hullwhite::transition_variances;
use crate::terms::{curve, Calls, Input, Leg, Pillars, Sigma};
use crate::{Outcome, Refusal};
use alloc::collections::BTreeMap;
use alloc::{vec, vec::Vec};

/// Slice lengths: nodes, probabilities, two rows.
#[derive(Clone, Copy, Debug)]
pub struct Room {
    pub nodes: usize,
    pub probabilities: usize,
    pub first: usize,
    pub second: usize,
}

#[derive(Clone, Debug)]
pub struct Terms {
    pub settlement: u32,
    pub code: u32,
    pub leg: Leg,
    pub units: f64,
    pub calls: Calls,
    pub puts: Calls,
    pub settings: (u32, u32),
    pub alpha: f64,
    pub sigma: Sigma,
    pub spread: f64,
    pub pillars: Pillars,
}

#[derive(Clone, Copy)]
struct Transition {
    middle: i32,
    /// Down, middle, up. A flat tree's three destinations are the same node.
    to: [i32; 3],
    probability: [f64; 3],
}

struct Tree {
    layers: Vec<BTreeMap<i32, Transition>>,
    spacings: Vec<f64>,
    last: Vec<i32>,
    nodes: u64,
}

fn refuse<T>(number: u32, place: u32) -> Outcome<T> {
    Err(Refusal { number, place })
}

fn room_for(room: Room, all: u64, layer: usize, k: u32) -> Outcome<()> {
    let fits = 2 * all <= room.nodes as u64
        && 3 * all <= room.probabilities as u64
        && layer <= room.first
        && layer <= room.second;
    if fits {
        Ok(())
    } else {
        refuse(21, k)
    }
}

fn flat(room: Room, steps: u32) -> Outcome<Tree> {
    for k in 0..=steps {
        room_for(room, u64::from(k) + 1, 1, k)?;
    }
    let only = Transition { middle: 0, to: [0; 3], probability: [0.0, 1.0, 0.0] };
    Ok(Tree {
        layers: vec![BTreeMap::from([(0, only)]); steps as usize],
        spacings: vec![0.0; steps as usize + 1],
        last: vec![0],
        nodes: u64::from(steps) + 1,
    })
}

fn transition(node: i32, spacing: f64, decay: f64, new: f64, denominator: f64, scale: f64, k: u32) -> Outcome<Transition> {
    let t = |x| tested(x, k);
    let state = t(spacing * f64::from(node))?;
    let expectation = t(state * decay)?;
    let middle = round_at(t(expectation / new)?, k)?;
    if middle.abs() > 1e6 {
        return refuse(23, k);
    }
    let error = t(expectation - t(new * middle)?)?;
    let square = t(t(error * error)? / denominator)?;
    let a = t(1.0 / 6.0 + square)?;
    let skew = t(error / scale)?;
    let down = t(a - skew)?;
    let mid = t(2.0 / 3.0 - t(square * 2.0)?)?;
    let up = t(a + skew)?;
    if [down, mid, up].iter().any(|&p| p < -1.0e-12) {
        return refuse(24, k);
    }
    let (down, mid, up) = (max_at(down, 0.0, k)?, max_at(mid, 0.0, k)?, max_at(up, 0.0, k)?);
    let total = t(t(down + mid)? + up)?;
    let middle = middle as i32;
    Ok(Transition {
        middle,
        to: [middle - 1, middle, middle + 1],
        probability: [t(down / total)?, t(mid / total)?, t(up / total)?],
    })
}

fn grown(room: Room, alpha: f64, time_step: f64, variances: &[f64]) -> Outcome<Tree> {
    let decay = exp_at(tested(-alpha * time_step, 0)?, 0)?;
    let mut spacings = vec![sqrt_at(tested(variances[0] * 3.0, 0)?, 0)?];
    let mut nodes = vec![0];
    let mut all = 1;
    room_for(room, all, 1, 0)?;
    let mut layers = Vec::new();
    for (k, &variance) in variances.iter().enumerate() {
        let spacing = spacings[k];
        let k = k as u32;
        if variance <= f64::EPSILON {
            return refuse(22, k);
        }
        let new = sqrt_at(tested(variance * 3.0, k)?, k)?;
        let denominator = tested(variance * 6.0, k)?;
        let scale = tested(new * 2.0, k)?;
        let mut layer = BTreeMap::new();
        for &node in &nodes {
            layer.insert(node, transition(node, spacing, decay, new, denominator, scale, k)?);
        }
        let mut next: Vec<i32> = layer.values().flat_map(|t: &Transition| [t.middle - 1, t.middle, t.middle + 1]).collect();
        next.sort_unstable();
        next.dedup();
        all += next.len() as u64;
        room_for(room, all, next.len(), k + 1)?;
        layers.push(layer);
        spacings.push(new);
        nodes = next;
    }
    Ok(Tree { layers, spacings, last: nodes, nodes: all })
}

fn fitted(terms: &Terms, tree: &Tree, time_step: f64) -> Outcome<Vec<f64>> {
    let mut prices = BTreeMap::from([(0, 1.0)]);
    let mut shifts = Vec::new();
    for (k, layer) in tree.layers.iter().enumerate() {
        let spacing = tree.spacings[k];
        let k = k as u32;
        let t = |x| tested(x, k);
        let mut sum = 0.0;
        for (&node, &price) in &prices {
            let x = t(-f64::from(node) * time_step)?;
            sum = t(sum + t(price * exp_at(t(spacing * x)?, k)?)?)?;
        }
        let factor = curve(terms.settlement, terms.code, &terms.pillars, t(time_step * f64::from(k + 1))?, k)?;
        if factor <= 0.0 {
            return refuse(25, k);
        }
        let shift = t(ln_at(t(sum / factor)?, k)? / time_step)?;
        shifts.push(shift);
        let mut next = BTreeMap::new();
        for (node, &price) in &prices {
            let to = layer[node];
            let rate = t(shift + t(spacing * f64::from(*node))?)?;
            let discounted = t(price * exp_at(t(rate * -time_step)?, k)?)?;
            for i in 0..3 {
                let contribution = t(discounted * to.probability[i])?;
                let value = match next.get(&to.to[i]) {
                    Some(existing) => t(existing + contribution)?,
                    None => contribution,
                };
                next.insert(to.to[i], value);
            }
        }
        prices = next;
    }
    Ok(shifts)
}

fn walked(grid: &Grid, tree: &Tree, shifts: &[f64], time_step: f64, spread: f64) -> Outcome<f64> {
    let mut values: BTreeMap<i32, f64> = tree.last.iter().map(|&node| (node, grid.cashflows[grid.steps as usize])).collect();
    for step in (0..grid.steps as usize).rev() {
        let k = step as u32;
        let t = |x| tested(x, k);
        let mut row = BTreeMap::new();
        for (&node, to) in &tree.layers[step] {
            let mut expected = 0.0;
            for i in 0..3 {
                expected = t(expected + t(values[&to.to[i]] * to.probability[i])?)?;
            }
            let rate = t(t(shifts[step] + t(tree.spacings[step] * f64::from(node))?)? + spread)?;
            let mut value = t(expected * exp_at(t(rate * -time_step)?, k)?)?;
            if let Some(price) = grid.calls[step] {
                value = min_at(value, price, k)?;
            }
            if let Some(price) = grid.puts[step] {
                value = max_at(value, price, k)?;
            }
            row.insert(node, t(value + grid.cashflows[step])?);
        }
        values = row;
    }
    Ok(values[&0])
}

pub(crate) fn input(terms: &Terms) -> Input<'_> {
    Input {
        settlement: terms.settlement,
        code: terms.code,
        leg: Some(&terms.leg),
        units: Some(terms.units),
        calls: Some(&terms.calls),
        puts: Some(&terms.puts),
        settings: Some(terms.settings),
        alpha: Some(terms.alpha),
        sigma: Some(&terms.sigma),
        spread: Some(terms.spread),
        pillars: Some(&terms.pillars),
        ..Input::default()
    }
}

/// The tree value entry: value and node count, or the refusal, and whether it was found in the input.
pub fn tree_value(terms: &Terms, room: Room) -> (Outcome<(f64, u64)>, bool) {
    if let Err(refusal) = input(terms).checked() {
        return (Err(refusal), true);
    }
    (valued(terms, room), false)
}

fn tree_of(terms: &Terms, room: Room, grid: &Grid, time_step: f64) -> Outcome<Tree> {
    let variances = transition_variances(terms.alpha, &terms.sigma, grid.steps, time_step)?;
    if variances.iter().all(|&v| v <= f64::EPSILON) {
        flat(room, grid.steps)
    } else {
        grown(room, terms.alpha, time_step, &variances)
    }
}

/// The least room for the tree of these terms, where it can be grown within a given one.
pub fn least_room(terms: &Terms, within: Room) -> Option<Room> {
    input(terms).checked().ok()?;
    let grid = bond_event_grid(terms.settlement, terms.code, &terms.leg, terms.units, &terms.calls, &terms.puts, terms.settings).ok()?;
    let time_step = tested(grid.maturity_time / f64::from(grid.steps), 0).ok()?;
    let tree = tree_of(terms, within, &grid, time_step).ok()?;
    let all = tree.nodes as usize;
    let widest = tree.layers.iter().map(BTreeMap::len).max()?.max(tree.last.len());
    Some(Room { nodes: 2 * all, probabilities: 3 * all, first: widest, second: widest })
}

fn valued(terms: &Terms, room: Room) -> Outcome<(f64, u64)> {
    let grid = bond_event_grid(terms.settlement, terms.code, &terms.leg, terms.units, &terms.calls, &terms.puts, terms.settings)?;
    let time_step = tested(grid.maturity_time / f64::from(grid.steps), 0)?;
    let tree = tree_of(terms, room, &grid, time_step)?;
    let shifts = fitted(terms, &tree, time_step)?;
    Ok((walked(&grid, &tree, &shifts, time_step, terms.spread)?, tree.nodes))
}
