//! Books against the second reading (number, place, bond, values, sum, counts, lent slices), each bond against the tree value's own call,
//! with the bonds' call or put lists made from their own, and with one desk's bonds among others.
use crate::bookexamples;
use crate::bookterms::{alone_of, drawn, loosened};
use crate::desks;
use crate::calllists::{made_from, Side};
use crate::random::Random;
use crate::tally::{Found, Tally};
use crate::tree::{self, AMPLE};
use host::Lent;
use reading::book::{self, Book, Closed, Named};
use reading::treebasedbondpricer::{Room, Terms};

/// What a run must meet, 0 for a book that is accepted: every refusal of a bond alone, 39 and 40.
const MET: [u32; 24] = [0, 1, 2, 3, 4, 5, 6, 7, 8, 20, 21, 22, 23, 25, 26, 27, 33, 34, 35, 37, 38, 39, 40, 44];
/// Of bonds that alone are all accepted.
const TOGETHER: [u32; 2] = [0, 27];
/// Found in the input behind a bond that is refused while it is valued, or, 40, in any way.
const BEHIND: [u32; 5] = [2, 4, 8, 33, 40];
/// More than enough for what `AMPLE` is enough for.
pub const ELSEWHERE: Room = Room { nodes: 24_009, probabilities: 36_016, first: 2_025, second: 2_036 };

pub fn number(answer: &Result<Closed, Named>) -> u32 {
    answer.as_ref().map_or_else(|named| named.refusal.number, |_| 0)
}

fn same(a: &Result<Closed, Named>, b: &Result<Closed, Named>) -> bool {
    let bits = |closed: &Closed| -> Vec<u64> { closed.values.iter().chain([&closed.sum]).map(|x| x.to_bits()).collect() };
    match (a, b) {
        (Ok(a), Ok(b)) => bits(a) == bits(b) && a.counts == b.counts,
        (Err(a), Err(b)) => a == b,
        _ => false,
    }
}

/// The answer, and whether the reading found it in the input.
pub fn compare(tally: &mut Tally, book: &Book, room: Room) -> (Result<Closed, Named>, bool) {
    compare_in(tally, book, room, Lent::new(room))
}

pub fn compare_in(tally: &mut Tally, book: &Book, room: Room, mut lent: Lent) -> (Result<Closed, Named>, bool) {
    let ours = host::book_value(book, &mut lent);
    let (theirs, in_the_input) = book::book_value(book, room);
    let left = if in_the_input { lent.untouched() } else { lent.zeroed() };
    tally.case(number(&ours), left && same(&ours, &theirs), || {
        format!("{book:?} {room:?} gives {ours:?} (slices as they must be: {left}), the reading {theirs:?}")
    });
    (ours, in_the_input)
}

/// Each value is that of the bond alone in the same slices and in others, and a desk's count that of its bonds together.
fn singles(tally: &mut Tally, members: &[Terms], desks: &[u32], closed: &Closed, room: Room) {
    let mut counts = [0; 8];
    for ((t, value), desk) in members.iter().zip(&closed.values).zip(desks) {
        let alone = host::tree_value(t, &mut Lent::new(room));
        let elsewhere = host::tree_value(t, &mut Lent::filled(ELSEWHERE, 3, 0.25));
        let agree = alone == elsewhere && alone.is_ok_and(|(x, _)| x.to_bits() == value.to_bits());
        tally.case(0, agree, || format!("{t:?} gives {value} in a book, alone {alone:?}, in other slices {elsewhere:?}"));
        counts[*desk as usize] += alone.map_or(0, |(_, nodes)| nodes);
    }
    let agree = closed.values.len() == members.len() && closed.counts == counts;
    tally.case(0, agree, || format!("{members:?} of {desks:?} have {:?} nodes in a book, alone {counts:?}", closed.counts));
}

/// What the answer owes to its bonds together: bonds that alone are all accepted make a book that is accepted or 27 of the sum; a bond
/// that is refused while it is valued stands behind one that the checks refuse, wherever that is, and any behind one with 40.
fn together(tallies: &mut [Tally; 2], book: &Book, answer: &Result<Closed, Named>, in_the_input: bool, room: Room) {
    let [sums, order] = tallies;
    let Err(named) = answer else { return sums.case(0, true, String::new) };
    let bonds = if in_the_input { named.bond as usize } else { book.size() };
    let refused = (0..bonds).find_map(|i| Some((i, host::tree_value(&book.alone(i)?, &mut Lent::new(room)).err()?)));
    let number = named.refusal.number;
    match refused {
        None if !in_the_input => sums.case(number, number == 27 && named.refusal.place == 0, || format!("{book:?} gives {named:?}")),
        Some((_, alone)) if in_the_input => {
            let valued = (20..28).contains(&alone.number) || alone.number == 38;
            order.case(number, valued || number == 40, || format!("{book:?} gives {named:?} before {alone:?}"));
        }
        Some((i, alone)) => order.case(0, (i, alone) == (named.bond as usize, named.refusal), || format!("{book:?} gives {named:?}, bond {i} {alone:?}")),
        None => {}
    }
}

/// Each bond's list made from its own: no value is lower (calls) or higher (puts), and no bit moves where a list is only reordered; or 4 at
/// the lowest bond with a strike outside its range, exactly then, or 27.
fn keeps(side: Side, only: &[bool], first: &Closed, second: &Result<Closed, Named>, outside: Option<(usize, usize)>) -> bool {
    match (second, outside) {
        (Ok(closed), None) => (0..first.values.len()).all(|i| {
            let (x, y) = (first.values[i], closed.values[i]);
            if only[i] { x.to_bits() == y.to_bits() } else { side.in_order(x, y) }
        }) && closed.counts == first.counts,
        (Err(named), None) => named.refusal.number == 27,
        (Err(named), Some(at)) => named.refusal.number == 4 && (named.bond as usize, named.refusal.place as usize) == at,
        (Ok(_), Some(_)) => false,
    }
}

/// Some of the bonds' lists made from their own, and whether each is at most reordered.
fn made(random: &mut Random, side: Side, members: &[Terms]) -> (Vec<Terms>, Vec<bool>) {
    let share = 1 + random.below(4);
    let one = |t: &Terms| {
        if random.below(share) > 0 {
            return (t.clone(), true);
        }
        let (list, only) = made_from(random, side, side.list(t));
        (side.with(t, list), only)
    };
    members.iter().map(one).unzip()
}

pub fn slices(random: &mut Random, members: &[Terms]) -> Room {
    if random.below(4) > 0 {
        return AMPLE;
    }
    let i = random.below(members.len() as u64) as usize;
    tree::room(random, &members[i], AMPLE)
}

pub fn round(long: bool, seed: u64) -> Found {
    let cases = if long { 100_000 } else { 5_000 };
    let mut random = Random(seed ^ 0xb00c);
    let [mut books, mut alone] = ["book", "book, alone"].map(Tally::new);
    let mut tallies = ["book, sum", "book, order"].map(Tally::new);
    let [mut calls, mut puts, mut apart] = ["book, calls", "book, puts", "book, desks"].map(Tally::new);
    bookexamples::tried(&mut books);
    for _ in 0..cases {
        let (members, desks) = drawn(&mut random);
        let mut book = Book::of(&members, &desks);
        if random.below(8) == 0 {
            loosened(&mut random, &mut book);
        }
        let room = slices(&mut random, &members);
        let (answer, in_the_input) = compare(&mut books, &book, room);
        together(&mut tallies, &book, &answer, in_the_input, room);
        let Ok(first) = answer else { continue };
        let members = alone_of(&book);
        singles(&mut alone, &members, &book.desks, &first, room);
        desks::tried(&mut random, [&mut books, &mut apart], &members, &book.desks, &first);
        for (side, rule) in [(Side::Call, &mut calls), (Side::Put, &mut puts)] {
            let (made, only) = made(&mut random, side, &members);
            let outside = made.iter().enumerate().find_map(|(i, t)| Some((i, side.outside(side.list(t))?)));
            let (second, _) = compare(&mut books, &Book::of(&made, &book.desks), room);
            rule.case(number(&second), keeps(side, &only, &first, &second, outside), || format!("{made:?} gives {second:?} behind {first:?}"));
        }
    }
    let [sums, order] = tallies;
    let missing = books.missing(&MET) + sums.missing(&TOGETHER) + order.missing(&BEHIND) + calls.missing(&[0, 4, 27]) + puts.missing(&[0, 4]) + apart.missing(&[0]);
    books.done() + alone.done() + sums.done() + order.done() + calls.done() + puts.done() + apart.done() + missing
}
