//! Books small enough for a record of the stored sample, with the second reading's answers.
use crate::bookterms::{drawn, loosened};
use crate::random::Random;
use crate::record::*;
use crate::sample::{sorted, LENT, PLAIN};
use reading::book::{book_value, Book};
use reading::terms::Calls;
use reading::treebasedbondpricer::tree_value;
use std::collections::BTreeMap;

/// The most bonds, and where their fields, values and counts stand.
const BONDS: usize = 4;
const FIELDS: usize = 110;
const VALUES: usize = LISTS;
const COUNTS: usize = LISTS + BONDS;
/// How many places the fields but two, the size and the desks have.
const PLACES: usize = 28;
const SIZE: usize = 55;
const DESKS: usize = 56;
/// 27 of the sum: bonds that alone are accepted. A record of it has a 1 in the word of a count.
const SUM: u64 = 102;
/// The refusals of a book that can be met by what a record holds.
const MET: [u64; 22] = [1, 2, 3, 4, 5, 6, 7, 8, 20, 21, 22, 23, 25, 26, 27, 33, 34, 35, 38, 39, 40, 44];

/// Whether lists that stand under one length have one, within their places, and no double is a NaN.
fn fits(b: &Book) -> bool {
    let places = b.codes.len();
    let fields = [b.units.len(), b.call_counts.len(), b.put_counts.len(), b.per_year.len(), b.max_steps.len(), b.spreads.len()];
    let entries = |list: &Calls| list.starts.len() <= CALLS && list.ends.len() == list.starts.len() && list.strikes.len() == list.starts.len();
    let lists = [&b.leg.amounts, &b.units, &b.calls.strikes, &b.puts.strikes, &b.spreads, &b.sigma.times, &b.sigma.sigmas, &b.pillars.factors];
    places <= BONDS
        && fields.iter().all(|&n| n == places)
        && b.flow_counts.len().max(b.desks.len()) <= BONDS
        && b.leg.days.len() <= FLOWS
        && b.leg.kinds.len() == b.leg.days.len()
        && b.leg.amounts.len() == b.leg.days.len()
        && entries(&b.calls)
        && entries(&b.puts)
        && b.sigma.times.len() <= CALLS
        && b.sigma.sigmas.len() == b.sigma.times.len()
        && b.pillars.days.len() <= FLOWS
        && b.pillars.factors.len() == b.pillars.days.len()
        && b.max_steps.iter().all(|&n| n as usize <= STEPS)
        && !lists.into_iter().flatten().chain([&b.alpha]).any(|x| x.is_nan())
}

fn small(random: &mut Random) -> Book {
    loop {
        let (members, desks) = drawn(random);
        let mut book = Book::of(&members, &desks);
        if random.below(8) == 0 {
            loosened(random, &mut book);
        }
        if fits(&book) {
            return book;
        }
    }
}

fn words(list: &[u32]) -> impl Iterator<Item = u64> + '_ {
    list.iter().map(|&n| u64::from(n))
}

fn inputs(b: &Book) -> Record {
    let mut r = [0; WORDS];
    (r[0], r[1], r[3]) = (22, u64::from(b.settlement), b.leg.days.len() as u64);
    numbers(&mut r, 4, words(&b.leg.days));
    numbers(&mut r, 12, b.leg.kinds.iter().map(|&n| u64::from(n)));
    floats(&mut r, 20, &b.leg.amounts);
    (r[PLACES], r[SIZE], r[DESKS]) = (b.codes.len() as u64, b.flow_counts.len() as u64, b.desks.len() as u64);
    entries(&mut r, CALL_LIST, &b.calls);
    entries(&mut r, PUT_LIST, &b.puts);
    floats(&mut r, 57, &[b.alpha]);
    market(&mut r, &b.sigma, &b.pillars);
    let lists = [&b.codes, &b.flow_counts, &b.call_counts, &b.put_counts, &b.per_year, &b.max_steps, &b.desks];
    for (list, place) in lists.into_iter().zip([0, 1, 3, 4, 5, 6, 8]) {
        numbers(&mut r, FIELDS + BONDS * place, words(list));
    }
    floats(&mut r, FIELDS + BONDS * 2, &b.units);
    floats(&mut r, FIELDS + BONDS * 7, &b.spreads);
    r
}

fn book_record(random: &mut Random) -> Record {
    let book = small(random);
    let mut room = LENT;
    if random.below(20) == 0 {
        room.probabilities = random.below(60) as usize;
    }
    let mut r = inputs(&book);
    numbers(&mut r, LENGTHS, [room.nodes, room.probabilities, room.first, room.second].into_iter().map(|n| n as u64));
    match book_value(&book, room).0 {
        Err(named) => {
            let accepted = |bond| book.alone(bond).is_some_and(|t| tree_value(&t, room).0.is_ok());
            r[COUNT] = u64::from(named.refusal.number == 27 && (0..book.size()).all(accepted));
            r[NODES] = u64::from(named.bond);
            refused(r, named.refusal)
        }
        Ok(closed) => {
            floats(&mut r, VALUE, &[closed.sum]);
            floats(&mut r, VALUES, &closed.values);
            numbers(&mut r, COUNTS, closed.counts.into_iter());
            r
        }
    }
}

/// What is counted: the refusal, 27 of the sum apart; or, accepted, whether there are two bonds or more.
fn counted(r: &Record) -> u64 {
    match r[REFUSAL] {
        0 if r[SIZE] < 2 => PLAIN,
        27 if r[COUNT] == 1 => SUM,
        number => number,
    }
}

/// 120 books: 3 of each refusal that can be met and of the sum's 27, 40 accepted with two bonds or more, 11 with one.
pub fn book_records(random: &mut Random) -> Vec<Record> {
    let mut left: BTreeMap<u64, u32> = MET.into_iter().map(|number| (number, 3)).collect();
    left.extend([(SUM, 3), (0, 40), (PLAIN, 11)]);
    sorted(random, left, book_record, counted)
}
