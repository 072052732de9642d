//! Books with their answers written out: sizes, desks, checks before values, the sum's 27, cuts that don't add up.
use crate::books::compare;
use crate::bookterms::put_at_once;
use crate::tally::Tally;
use crate::tree::AMPLE;
use reading::book::{Book, Closed, Named};
use reading::terms::Calls;
use reading::treebasedbondpricer::Terms;
use reading::Refusal;

fn plain() -> Terms {
    Terms { puts: Calls::default(), ..put_at_once(1.0, 100.0) }
}

/// Worth 1e308.
fn huge() -> Terms {
    put_at_once(1e6, 1e-300)
}

/// A call on settlement where no redemption follows: 20 at step 0.
fn unpriced() -> Terms {
    let mut t = plain();
    t.calls = Calls { starts: vec![0], ends: vec![0], strikes: vec![100.0] };
    t.leg.kinds = vec![0];
    t
}

/// Bond i is of desk i, from 0 again behind 7.
fn of(bonds: &[Terms]) -> Book {
    let desks: Vec<u32> = (0..bonds.len() as u32).map(|i| i % 8).collect();
    Book::of(bonds, &desks)
}

fn with(bonds: &[Terms], change: impl FnOnce(&mut Book)) -> Book {
    let mut book = of(bonds);
    change(&mut book);
    book
}

fn nan(mut t: Terms) -> Terms {
    t.units = f64::NAN;
    t
}

/// The bond, the number and the place of books that are refused.
fn refused() -> Vec<(Book, u32, u32, u32)> {
    let three = || [plain(), huge(), plain()];
    let long = |mut t: Terms| {
        t.leg.days = vec![366];
        t
    };
    vec![
        (with(&[plain()], |b| b.flow_counts.clear()), 0, 39, 0),
        (of(&vec![nan(plain()); 33]), 0, 39, 0),
        (of(&[unpriced(), plain(), nan(plain())]), 2, 4, 0),
        (of(&[plain(), unpriced(), plain(), unpriced()]), 1, 20, 0),
        (of(&[plain(), unpriced(), long(plain())]), 2, 8, 1),
        (of(&[huge(), huge()]), 1, 27, 0),
        (of(&[huge(), plain(), huge(), huge()]), 2, 27, 0),
        (of(&[huge(), huge(), unpriced()]), 2, 20, 0),
        (with(&[plain(), plain(), nan(plain())], |b| b.pillars.factors[1] = -1.0), 0, 44, 1),
        (with(&[nan(plain()), plain()], |b| b.pillars.factors[1] = -1.0), 0, 4, 0),
        (with(&three(), |b| b.codes.truncate(1)), 1, 2, 0),
        (with(&three(), |b| { b.codes.truncate(1); b.per_year[1] = 0 }), 1, 2, 0),
        (with(&three(), |b| { b.units.truncate(1); b.per_year[1] = 0 }), 1, 1, 0),
        (with(&three(), |b| { b.units.truncate(1); b.codes[1] = 3 }), 1, 33, 0),
        (with(&three(), |b| { b.units.truncate(1); b.settlement = 200_001 }), 0, 3, 0),
        (with(&three(), |b| b.units.push(1.0)), 2, 2, 0),
        (with(&three(), |b| b.spreads.truncate(2)), 2, 2, 0),
        (with(&three(), |b| b.put_counts[0] = 1), 1, 2, 0),
        (with(&three(), |b| b.put_counts[2] = 1), 2, 2, 0),
        (with(&three(), |b| b.flow_counts[1] = u32::MAX), 1, 2, 0),
        (with(&three(), |b| { b.call_counts[0] = u32::MAX; b.spreads[0] = 2.0 }), 0, 2, 0),
        (with(&three(), |b| b.leg.days.push(365)), 2, 2, 0),
        (with(&[nan(plain()), plain(), plain()], |b| b.desks[1..].fill(8)), 1, 40, 0),
        (with(&vec![plain(); 33], |b| b.desks[0] = 8), 0, 39, 0),
        (with(&three(), |b| { b.desks[2] = u32::MAX; b.codes.clear() }), 2, 40, 0),
        (with(&[plain()], |b| b.desks.push(9)), 0, 2, 0),
        (with(&three(), |b| b.desks.truncate(2)), 2, 2, 0),
        (with(&three(), |b| b.desks.clear()), 0, 2, 0),
        (with(&three(), |b| { b.desks.clear(); b.codes[0] = 3 }), 0, 33, 0),
    ]
}

/// Books, their values, the sum and the desks' counts.
fn accepted() -> Vec<(Book, Vec<f64>, f64, [u64; 8])> {
    let low = Terms { puts: Calls { starts: vec![0], ends: vec![0], strikes: vec![97.0] }, ..plain() };
    vec![
        (of(&[huge()]), vec![1e308], 1e308, [4, 0, 0, 0, 0, 0, 0, 0]),
        (of(&[plain(), low.clone()]), vec![95.00000000000001, 97.0], 192.0, [4, 4, 0, 0, 0, 0, 0, 0]),
        (with(&[plain(), low.clone(), low.clone()], |b| b.desks = vec![7, 0, 7]), vec![95.00000000000001, 97.0, 97.0], 289.0, [4, 0, 0, 0, 0, 0, 0, 8]),
        (of(&vec![low; 32]), vec![97.0; 32], 3104.0, [16; 8]),
    ]
}

pub fn tried(tally: &mut Tally) {
    for (book, bond, number, place) in refused() {
        let (answer, _) = compare(tally, &book, AMPLE);
        let named = Named { bond, refusal: Refusal { number, place } };
        tally.case(number, answer == Err(named), || format!("an example gives {answer:?} where {named:?} is written: {book:?}"));
    }
    for (book, values, sum, counts) in accepted() {
        let (answer, _) = compare(tally, &book, AMPLE);
        let closed = Closed { values, sum, counts };
        tally.case(0, answer == Ok(closed.clone()), || format!("an example gives {answer:?} where {closed:?} is written: {book:?}"));
    }
}
