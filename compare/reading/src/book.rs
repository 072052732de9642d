//! A book of bonds, each cut out of the common lists and read as if alone.
use crate::elementary::tested;
use crate::terms::{Calls, Leg, Pillars, Sigma};
use crate::treebasedbondpricer::{input, tree_value, Room, Terms};
use crate::{Outcome, Refusal};
use alloc::vec::Vec;

/// What the bonds share, a place for each bond, and their entries one after the other.
#[derive(Clone, Debug)]
pub struct Book {
    pub settlement: u32,
    pub codes: Vec<u32>,
    pub flow_counts: Vec<u32>,
    pub leg: Leg,
    pub units: Vec<f64>,
    pub call_counts: Vec<u32>,
    pub calls: Calls,
    pub put_counts: Vec<u32>,
    pub puts: Calls,
    pub per_year: Vec<u32>,
    pub max_steps: Vec<u32>,
    pub spreads: Vec<f64>,
    pub desks: Vec<u32>,
    pub alpha: f64,
    pub sigma: Sigma,
    pub pillars: Pillars,
}

/// Each value, their sum, and each desk's node count.
#[derive(Clone, Debug, PartialEq)]
pub struct Closed {
    pub values: Vec<f64>,
    pub sum: f64,
    pub counts: [u64; 8],
}

/// The bond that is refused, and how.
#[derive(Clone, Copy, Debug, PartialEq, Eq)]
pub struct Named {
    pub bond: u32,
    pub refusal: Refusal,
}

/// A bond's entries of a list; none where they pass its end, or where the last bond leaves some over.
fn cut<T: Copy>(list: &[T], counts: &[u32], bond: usize, last: bool) -> Option<Vec<T>> {
    let from: usize = counts.get(..bond)?.iter().map(|&n| n as usize).sum();
    let rest = list.get(from..)?;
    let count = *counts.get(bond)? as usize;
    let whole = if last { rest.len() == count } else { rest.len() >= count };
    whole.then(|| rest[..count].to_vec())
}

fn cut_entries(list: &Calls, counts: &[u32], bond: usize, last: bool) -> Option<Calls> {
    Some(Calls {
        starts: cut(&list.starts, counts, bond, last)?,
        ends: cut(&list.ends, counts, bond, last)?,
        strikes: cut(&list.strikes, counts, bond, last)?,
    })
}

/// A bond's place in a list; the last bond's must be the last.
fn own<T: Copy>(list: &[T], bond: usize, last: bool) -> Option<T> {
    list.get(bond).copied().filter(|_| !last || list.len() == bond + 1)
}

fn joined<T: Copy>(bonds: &[Terms], of: impl Fn(&Terms) -> &[T]) -> Vec<T> {
    bonds.iter().flat_map(|t| of(t).to_vec()).collect()
}

fn joined_entries(bonds: &[Terms], of: impl Fn(&Terms) -> &Calls) -> Calls {
    Calls {
        starts: joined(bonds, |t| &of(t).starts),
        ends: joined(bonds, |t| &of(t).ends),
        strikes: joined(bonds, |t| &of(t).strikes),
    }
}

impl Book {
    /// The book of these bonds, at least one, and their desks; what is shared is the first one's.
    pub fn of(bonds: &[Terms], desks: &[u32]) -> Book {
        let counts = |of: fn(&Terms) -> usize| bonds.iter().map(|t| of(t) as u32).collect();
        let shared = bonds[0].clone();
        Book {
            settlement: shared.settlement,
            codes: bonds.iter().map(|t| t.code).collect(),
            flow_counts: counts(|t| t.leg.days.len()),
            leg: Leg { days: joined(bonds, |t| &t.leg.days), kinds: joined(bonds, |t| &t.leg.kinds), amounts: joined(bonds, |t| &t.leg.amounts) },
            units: bonds.iter().map(|t| t.units).collect(),
            call_counts: counts(|t| t.calls.starts.len()),
            calls: joined_entries(bonds, |t| &t.calls),
            put_counts: counts(|t| t.puts.starts.len()),
            puts: joined_entries(bonds, |t| &t.puts),
            per_year: bonds.iter().map(|t| t.settings.0).collect(),
            max_steps: bonds.iter().map(|t| t.settings.1).collect(),
            spreads: bonds.iter().map(|t| t.spread).collect(),
            desks: desks.to_vec(),
            alpha: shared.alpha,
            sigma: shared.sigma,
            pillars: shared.pillars,
        }
    }

    pub fn size(&self) -> usize {
        self.flow_counts.len()
    }

    /// A bond as a call of its own; none where the lists don't add up for it.
    pub fn alone(&self, bond: usize) -> Option<Terms> {
        let last = bond + 1 == self.size();
        own(&self.desks, bond, last)?;
        let counts = &self.flow_counts;
        Some(Terms {
            leg: Leg {
                days: cut(&self.leg.days, counts, bond, last)?,
                kinds: cut(&self.leg.kinds, counts, bond, last)?,
                amounts: cut(&self.leg.amounts, counts, bond, last)?,
            },
            units: own(&self.units, bond, last)?,
            calls: cut_entries(&self.calls, own(&self.call_counts, bond, last).map(|_| &self.call_counts[..])?, bond, last)?,
            puts: cut_entries(&self.puts, own(&self.put_counts, bond, last).map(|_| &self.put_counts[..])?, bond, last)?,
            spread: own(&self.spreads, bond, last)?,
            code: own(&self.codes, bond, last)?,
            settings: (own(&self.per_year, bond, last)?, own(&self.max_steps, bond, last)?),
            ..self.shared()
        })
    }

    /// The terms that all bonds have, and no flow: 2, behind 1 and 33.
    fn shared(&self) -> Terms {
        Terms {
            settlement: self.settlement,
            code: 0,
            leg: Leg::default(),
            units: 1.0,
            calls: Calls::default(),
            puts: Calls::default(),
            settings: (1, 1),
            alpha: self.alpha,
            sigma: self.sigma.clone(),
            spread: 0.0,
            pillars: self.pillars.clone(),
        }
    }

    /// A bond's checks. Where it can't be cut out, 2 in its own position; first, where its code or settings are missing.
    fn checked(&self, bond: usize) -> Outcome<()> {
        let settings = (self.codes.get(bond), self.per_year.get(bond), self.max_steps.get(bond));
        let (Some(&code), Some(&per_year), Some(&max_steps)) = settings else {
            return Err(Refusal { number: 2, place: 0 });
        };
        let unfit = || Terms { code, settings: (per_year, max_steps), ..self.shared() };
        input(&self.alone(bond).unwrap_or_else(unfit)).checked()
    }
}

/// The values and counts, then the sum.
fn valued(book: &Book, room: Room) -> Result<Closed, Named> {
    let named = |bond: usize| move |refusal: Refusal| Named { bond: bond as u32, refusal };
    let mut closed = Closed { values: Vec::new(), sum: 0.0, counts: [0; 8] };
    for bond in 0..book.size() {
        let terms = book.alone(bond).expect("a bond that was checked");
        let (value, count) = tree_value(&terms, room).0.map_err(named(bond))?;
        closed.values.push(value);
        closed.counts[book.desks[bond] as usize] += count;
    }
    for (bond, &value) in closed.values.iter().enumerate() {
        closed.sum = tested(closed.sum + value, 0).map_err(named(bond))?;
    }
    Ok(closed)
}

/// The book entry: the answer, and whether it was found in the input.
pub fn book_value(book: &Book, room: Room) -> (Result<Closed, Named>, bool) {
    if !(1..=32).contains(&book.size()) {
        return (Err(Named { bond: 0, refusal: Refusal { number: 39, place: 0 } }), true);
    }
    if let Some(bond) = book.desks.iter().take(book.size()).position(|desk| !(0..8).contains(desk)) {
        return (Err(Named { bond: bond as u32, refusal: Refusal { number: 40, place: 0 } }), true);
    }
    for bond in 0..book.size() {
        if let Err(refusal) = book.checked(bond) {
            return (Err(Named { bond: bond as u32, refusal }), true);
        }
    }
    (valued(book, room), false)
}
