//! One desk's bonds in a second book, other bonds around them, other slices: the desk's count and values stay.
use crate::books::{compare_in, number, slices, ELSEWHERE};
use crate::bookterms::{another, desk, redraw};
use crate::random::Random;
use crate::tally::Tally;
use host::Lent;
use reading::book::{Book, Closed};
use reading::treebasedbondpricer::Terms;

/// The values of a desk's bonds, in book order.
fn values_of(closed: &Closed, desks: &[u32], own: u32) -> Vec<u64> {
    desks.iter().zip(&closed.values).filter(|(desk, _)| **desk == own).map(|(_, value)| value.to_bits()).collect()
}

/// Other bonds on the same shared terms: of the first book, or new ones.
fn strangers(random: &mut Random, members: &[Terms], desks: &[u32], own: u32) -> Vec<Terms> {
    let mut bonds = vec![members[0].clone()];
    for (t, _) in members.iter().zip(desks).filter(|(_, desk)| **desk != own) {
        if random.below(2) == 0 {
            bonds.push(t.clone());
        }
    }
    for _ in 0..random.below(4) {
        bonds.push(another(random, &members[0]));
    }
    redraw(random, &mut bonds);
    bonds.split_off(1)
}

/// The desk's bonds in their order, the others before, between and behind them.
fn mixed(random: &mut Random, members: &[Terms], desks: &[u32], own: u32) -> (Vec<Terms>, Vec<u32>) {
    let mut kept: Vec<Terms> = members.iter().zip(desks).filter(|(_, desk)| **desk == own).map(|(t, _)| t.clone()).collect();
    let mut others = strangers(random, members, desks, own);
    others.truncate(32 - kept.len());
    let (mut bonds, mut places) = (Vec::new(), Vec::new());
    while !(kept.is_empty() && others.is_empty()) {
        let left = kept.len() + others.len();
        if random.below(left as u64) < kept.len() as u64 {
            bonds.push(kept.remove(0));
            places.push(own);
        } else {
            bonds.push(others.remove(0));
            places.push((own + 1 + desk(random).min(6)) % 8);
        }
    }
    (bonds, places)
}

/// A second book beside one that is accepted. The tallies are of all books, and of two that share a desk's bonds.
pub fn tried(random: &mut Random, [books, apart]: [&mut Tally; 2], members: &[Terms], desks: &[u32], first: &Closed) {
    let own = desks[random.below(desks.len() as u64) as usize];
    let (bonds, places) = mixed(random, members, desks, own);
    let room = if random.below(2) == 0 { ELSEWHERE } else { slices(random, &bonds) };
    let (answer, _) = compare_in(books, &Book::of(&bonds, &places), room, Lent::filled(room, 3, 0.25));
    let stays = |second: &Closed| {
        second.counts[own as usize] == first.counts[own as usize] && values_of(second, &places, own) == values_of(first, desks, own)
    };
    let same = answer.as_ref().map_or(true, stays);
    apart.case(number(&answer), same, || format!("desk {own} of {desks:?} has {first:?}, of {places:?} {answer:?}: {members:?} {bonds:?}"));
}
