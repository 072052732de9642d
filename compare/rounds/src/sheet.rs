//! Lines of the closing sheet against the second reading (number, place, 35 bytes, lent slices): of bonds worth a given double,
//! which Rust prints too, and of random terms, each beside a call or put list made from its own.
use crate::calllists::{made_from, Side};
use crate::faults;
use crate::random::Random;
use crate::tally::{Found, Tally};
use crate::terms::{self, pick};
use crate::tree::{self, tree_terms};
use host::Lent;
use reading::sheet::{self, Line};
use reading::terms::{Calls, Leg, Pillars, Sigma};
use reading::treebasedbondpricer::{tree_value, Room, Terms};

/// What a run must meet, 0 for a value.
const MET: [u32; 24] = [0, 1, 2, 3, 4, 5, 6, 7, 8, 20, 21, 22, 23, 25, 26, 27, 31, 32, 33, 34, 35, 37, 38, 44];
const SMALL: Room = Room { nodes: 4, probabilities: 6, first: 1, second: 1 };

pub fn bond_number(random: &mut Random) -> u32 {
    match random.below(12) {
        0 => pick(random, &[0, 1_000_000, u32::MAX]),
        1 => pick(random, &[1, 9, 10, 99_999, 100_000, 999_999]),
        _ => 1 + random.below(999_999) as u32,
    }
}

/// A double of any exponent, an exact half cent, a double beside a decimal half cent or beside the widest value.
pub fn value(random: &mut Random) -> f64 {
    match random.below(6) {
        0 | 1 => random.double(),
        2 => {
            let whole = (random.bits() >> (24 + random.below(40))) as f64;
            let x = whole + pick(random, &[0.125, 0.375, 0.625, 0.875]);
            let x = random.sign(x);
            if random.below(4) == 0 {
                random.beside(x)
            } else {
                x
            }
        }
        3 | 4 => {
            let cents = (random.bits() >> (17 + random.below(47))) as f64;
            let x = random.sign((cents + 0.5) / 100.0);
            random.beside(x)
        }
        _ => {
            let x = pick(random, &[999_999_999_999.99, 999_999_999_999.995, 1e12, 562_949_953_421_312.0]);
            let x = random.sign(x);
            random.beside(x)
        }
    }
}

/// A bond that repays these amounts in a year, discounted by nothing.
fn repaying(amounts: &[f64]) -> Terms {
    Terms {
        settlement: 0,
        code: 0,
        leg: Leg { days: vec![365; amounts.len()], kinds: vec![1; amounts.len()], amounts: amounts.to_vec() },
        units: 100.0,
        calls: Calls::default(),
        puts: Calls::default(),
        settings: (1, 512),
        alpha: 0.0,
        sigma: Sigma { times: vec![0.0], sigmas: vec![0.0] },
        spread: 0.0,
        pillars: Pillars { days: vec![0, 365], factors: vec![1.0, 1.0] },
    }
}

/// A bond worth about as much as a double that no two flows reach: a spread of -1 over many years.
fn far(x: f64) -> Terms {
    let day = (365.0 * (x.abs() / 1e12).ln()).clamp(1.0, 200_000.0) as u32;
    let mut terms = Terms { spread: -1.0, settings: (1, 1), ..repaying(&[1e12_f64.copysign(x)]) };
    (terms.leg.days[0], terms.pillars.days[1]) = (day, day);
    terms
}

/// Terms worth a double: one flow, or two where it is above what a flow may be, or many years where it is above that.
fn worth(x: f64) -> Terms {
    if x.is_nan() || x.abs() <= 1e12 {
        repaying(&[x])
    } else if x.abs() <= 2e12 {
        repaying(&[x / 2.0, x / 2.0])
    } else {
        far(x)
    }
}

fn compare(tally: &mut Tally, bond: u32, t: &Terms, room: Room) -> Line {
    let mut lent = Lent::new(room);
    let ours = host::closing_line(bond, t, &mut lent);
    let (answer, in_the_input) = tree_value(t, room);
    let theirs = sheet::line(bond, &answer);
    let left = if in_the_input { lent.untouched() } else { lent.zeroed() };
    tally.case(ours.0, left && ours == theirs, || {
        let text = |line: &Line| String::from_utf8_lossy(&line.2).into_owned();
        format!("{bond} {t:?} {room:?} prints {:?} {}, the reading {:?} {}", text(&ours), ours.0, text(&theirs), theirs.0)
    });
    ours
}

/// The cents that a line shows.
fn cents(line: &Line) -> i128 {
    let value = std::str::from_utf8(&line.2[6..22]).unwrap().trim();
    value.replace('.', "").parse().unwrap()
}

/// Whether a line of a list made from another's is as the rule of its side has it.
fn in_order(side: Side, first: &Line, second: &Line, outside: bool) -> bool {
    match second.0 {
        0 => side.in_order(cents(first) as f64, cents(second) as f64),
        4 => outside,
        27 | 32 => !outside,
        _ => false,
    }
}

/// What Rust prints with two decimals; its zero has a sign.
fn rusts(x: f64) -> String {
    let text = format!("{x:.2}");
    if text == "-0.00" {
        return "0.00".to_owned();
    }
    text
}

fn of_values(cases: u32, random: &mut Random) -> Found {
    let mut doubles = Tally::new("sheet, value");
    for _ in 0..cases {
        let x = value(random);
        let bond = bond_number(random);
        let ours = compare(&mut doubles, bond, &worth(x), SMALL);
        if ours.0 == 0 {
            let shown = String::from_utf8_lossy(&ours.2[6..22]).trim().to_owned();
            let same = sheet::printed(x).as_deref() == Some(shown.as_str()) && rusts(x) == shown;
            doubles.case(0, same, || format!("{x:e} prints {shown}, in Rust {}", rusts(x)));
        }
        if x.abs() > 2e12 && ours.0 != 31 {
            doubles.case(32, ours.0 == 32, || format!("a bond worth about {x:e} gives {}", ours.0));
        }
    }
    doubles.done()
}

fn of_terms(cases: u32, random: &mut Random) -> Found {
    let mut lines = Tally::new("sheet");
    let [mut calls, mut puts] = ["sheet, calls", "sheet, puts"].map(Tally::new);
    for _ in 0..cases {
        let mut t = tree_terms(random);
        if random.below(20) == 0 {
            faults::several(random, &mut t);
        }
        if random.below(4) == 0 {
            terms::damage(random, &mut t);
        }
        if random.below(16) == 0 {
            t.leg.amounts.iter_mut().for_each(|amount| *amount *= 1e10);
        }
        let room = tree::room(random, &t, tree::AMPLE);
        let bond = bond_number(random);
        let first = compare(&mut lines, bond, &t, room);
        if first.0 != 0 {
            continue;
        }
        for (side, rule) in [(Side::Call, &mut calls), (Side::Put, &mut puts)] {
            let (list, _) = made_from(random, side, side.list(&t));
            let outside = side.outside(&list).is_some();
            let made = side.with(&t, list);
            let second = compare(&mut lines, bond, &made, room);
            rule.case(second.0, in_order(side, &first, &second, outside), || format!("{made:?} prints {second:?} behind {first:?}"));
        }
    }
    let missing = lines.missing(&MET);
    lines.done() + calls.done() + puts.done() + missing
}

pub fn round(long: bool, seed: u64) -> Found {
    let mut random = Random(seed ^ 0x5bee7);
    let values = of_values(if long { 1_000_000 } else { 20_000 }, &mut random);
    values + of_terms(if long { 1_000_000 } else { 5_000 }, &mut random)
}
