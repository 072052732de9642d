//! The tree value and spread from price entries, and the slices that they are lent.
use crate::withterms::with_terms;
use crate::{answer, PATTERN};
use reading::treebasedbondpricer::{Room, Terms};
use reading::{Answer, Outcome};

/// Places before and after each slice that must stay as they are.
const BESIDE: usize = 4;

/// The four slices, each with a few places beside it, filled with a number and a double.
pub struct Lent {
    number: i32,
    double: f64,
    pub(crate) nodes: Vec<i32>,
    floats: [Vec<f64>; 3],
}

fn inside<T>(all: &[T]) -> &[T] {
    &all[BESIDE..all.len() - BESIDE]
}

pub(crate) fn lend<T>(all: &mut [T]) -> (*mut T, usize) {
    (all[BESIDE..].as_mut_ptr(), all.len() - 2 * BESIDE)
}

impl Lent {
    /// Filled with a number and a NaN.
    pub fn new(room: Room) -> Self {
        Lent::filled(room, -77, PATTERN)
    }

    pub fn filled(room: Room, number: i32, double: f64) -> Self {
        let row = |length: usize| vec![double; length + 2 * BESIDE];
        Lent {
            number,
            double,
            nodes: vec![number; room.nodes + 2 * BESIDE],
            floats: [row(room.probabilities), row(room.first), row(room.second)],
        }
    }

    /// Where each slice begins, and how long it is.
    pub(crate) fn slices(&mut self) -> ((*mut i32, usize), [(*mut f64, usize); 3]) {
        (lend(&mut self.nodes), self.floats.each_mut().map(|row| lend(row)))
    }

    fn is_number(&self, n: i32) -> bool {
        n == self.number
    }

    fn is_double(&self, x: f64) -> bool {
        x.to_bits() == self.double.to_bits()
    }

    /// Whether two hold the same bits.
    pub fn same(&self, other: &Lent) -> bool {
        let bits = |lent: &Lent| -> Vec<u64> { lent.floats.iter().flatten().map(|x| x.to_bits()).collect() };
        self.nodes == other.nodes && bits(self) == bits(other)
    }

    /// The slices and all beside them hold what they were filled with.
    pub fn untouched(&self) -> bool {
        self.nodes.iter().all(|&n| self.is_number(n)) && self.floats.iter().flatten().all(|&x| self.is_double(x))
    }

    /// The slices are all zero, and what is beside them untouched.
    pub fn zeroed(&self) -> bool {
        let ends = |length: usize| (0..BESIDE).chain(length - BESIDE..length);
        inside(&self.nodes).iter().all(|&n| n == 0)
            && ends(self.nodes.len()).all(|i| self.is_number(self.nodes[i]))
            && self.floats.iter().all(|row| {
                inside(row).iter().all(|x| x.to_bits() == 0) && ends(row.len()).all(|i| self.is_double(row[i]))
            })
    }
}

/// The tree value entry: value and node count.
pub fn tree_value(terms: &Terms, lent: &mut Lent) -> Outcome<(f64, u64)> {
    let (mut place, mut value, mut node_count) = (0xdead_beef, PATTERN, 0xdead_beef);
    let (nodes, nodes_len) = lend(&mut lent.nodes);
    let [(probabilities, probabilities_len), (first, first_len), (second, second_len)] = lent.floats.each_mut().map(|row| lend(row));
    let number = unsafe {
        with_terms!(gutirapeo_tree_value, [], terms, [terms.spread], [
            nodes,
            nodes_len,
            probabilities,
            probabilities_len,
            first,
            first_len,
            second,
            second_len,
            &mut place,
            &mut value,
            &mut node_count,
        ])
    };
    if number != 0 {
        assert_eq!(node_count, 0, "refusal {number} left a node count");
    }
    answer(number, place, value).map(|value| (value, node_count))
}

/// The spread from price entry, with the spreads tried. The spread that the terms hold isn't handed over.
pub fn spread_from_price(terms: &Terms, target: f64, lent: &mut Lent) -> (Answer, u32) {
    let (mut place, mut spread, mut tried) = (0xdead_beef, PATTERN, 0xdead_beef);
    let (nodes, nodes_len) = lend(&mut lent.nodes);
    let [(probabilities, probabilities_len), (first, first_len), (second, second_len)] = lent.floats.each_mut().map(|row| lend(row));
    let number = unsafe {
        with_terms!(gutirapeo_spread_from_price, [], terms, [target], [
            nodes,
            nodes_len,
            probabilities,
            probabilities_len,
            first,
            first_len,
            second,
            second_len,
            &mut place,
            &mut spread,
            &mut tried,
        ])
    };
    (answer(number, place, spread), tried)
}
