//! Writes the stored sample that the program `replay` runs without Rust: `rounds --sample FILE`.
//!
//! Records are written little-endian. Accepted answers are the published text's where there are no puts; with puts, refusals, lengths of
//! slices, the call lists of notices, the lines of the closing sheet, the spread by sigma tables and the books are the second reading's.
use crate::bookrecords::book_records;
use crate::notices::{damage, good, parallel};
use crate::random::Random;
use crate::record::*;
use crate::sheet::{bond_number, value};
use crate::sizing::{sized_terms, SIZED};
use crate::spreadterms::{spread_terms, target};
use crate::tablerecords::table_records;
use crate::tally::published;
use crate::terms;
use crate::tree::tree_terms;
use reading::bondanalytics::{self, Rate};
use reading::bondevents::Grid;
use reading::notices::{self, Notices};
use reading::sheet;
use reading::sizing;
use reading::treebasedbondpricer::{self, Room, Terms};
use reading::{bondevents, bondpricer, elementary, Answer, Refusal};
use std::collections::BTreeMap;
use std::io::Write;

/// Terms small enough for a record, with no NaN.
pub fn small(random: &mut Random, terms: fn(&mut Random) -> Terms) -> Terms {
    loop {
        let mut t = terms(random);
        if random.below(4) == 0 {
            terms::damage(random, &mut t);
        }
        let fits = t.leg.days.len() <= FLOWS
            && t.leg.kinds.len() == t.leg.days.len()
            && t.leg.amounts.len() == t.leg.days.len()
            && t.calls.starts.len() <= CALLS
            && t.calls.ends.len() == t.calls.starts.len()
            && t.calls.strikes.len() == t.calls.starts.len()
            && t.puts.starts.len() <= CALLS
            && t.puts.ends.len() == t.puts.starts.len()
            && t.puts.strikes.len() == t.puts.starts.len()
            && t.sigma.times.len() <= CALLS
            && t.sigma.sigmas.len() == t.sigma.times.len()
            && t.pillars.days.len() <= FLOWS
            && t.pillars.factors.len() == t.pillars.days.len()
            && t.settings.1 as usize <= STEPS;
        let all = [t.units, t.alpha, t.spread];
        let lists = [&t.leg.amounts, &t.calls.strikes, &t.puts.strikes, &t.sigma.times, &t.sigma.sigmas, &t.pillars.factors];
        if fits && !all.iter().chain(lists.into_iter().flatten()).any(|x| x.is_nan()) {
            return t;
        }
    }
}

fn elementary_record(random: &mut Random, kind: u64) -> Record {
    let (a, b, c) = loop {
        let [a, b, c] = random.triple();
        if ![a, b, c].iter().any(|x| x.is_nan()) {
            break (a, b, c);
        }
    };
    let answer: Answer = match kind {
        1 => elementary::sqrt(a),
        2 => elementary::round(a),
        3 => elementary::ceil(a),
        4 => elementary::max(a, b),
        5 => elementary::min(a, b),
        6 => elementary::exp(a),
        7 => elementary::exp_m1(a),
        8 => elementary::ln(a),
        9 => elementary::powf(a, b),
        10 => elementary::mul_add(a, b, c),
        _ => elementary::midpoint(a, b),
    };
    let mut r = [0; WORDS];
    r[0] = kind;
    floats(&mut r, ARGUMENTS, &[a, b, c]);
    match answer {
        Ok(x) => {
            floats(&mut r, VALUE, &[x]);
            r
        }
        Err(refusal) => refused(r, refusal),
    }
}

/// A mark and a price for each step.
fn steps(record: &mut Record, at: usize, prices: &[Option<f64>]) {
    numbers(record, at, prices.iter().map(|c| u64::from(c.is_some())));
    floats(record, at + STEPS + 1, &prices.iter().map(|c| c.unwrap_or(0.0)).collect::<Vec<_>>());
}

fn grid_record(random: &mut Random) -> Record {
    let t = small(random, terms::terms);
    let mut r = inputs(12, &t);
    match bondevents::grid(t.settlement, t.code, &t.leg, t.units, &t.calls, &t.puts, t.settings) {
        Err(refusal) => refused(r, refusal),
        Ok(mut grid) => {
            if t.puts.starts.is_empty() {
                let text = published(|| published::grid(t.settlement, t.code, &t.leg, t.units, &t.calls, t.settings));
                let (maturity_time, steps, cashflows, calls) = text.expect("the published text accepts");
                grid = Grid { maturity_time, steps: steps as u32, cashflows, calls, puts: Vec::new() };
            }
            floats(&mut r, VALUE, &[grid.maturity_time]);
            r[COUNT] = u64::from(grid.steps);
            let last = grid.steps as usize;
            floats(&mut r, LISTS, &grid.cashflows[..=last]);
            steps(&mut r, LISTS + STEPS + 1, &grid.calls[..=last]);
            grid.puts.resize(last + 1, None);
            steps(&mut r, LISTS + 3 * (STEPS + 1), &grid.puts);
            r
        }
    }
}

/// 80 grids: 30 accepted without puts and 25 with, 3 each of 33 and 35, 5 of 38, 14 of other refusals. A record can't hold as many puts
/// as are 37.
fn grid_records(random: &mut Random) -> Vec<Record> {
    let left = BTreeMap::from([(0, 30), (PUT, 25), (33, 3), (35, 3), (38, 5), (PLAIN, 14)]);
    sorted(random, left, grid_record, |r| match r[REFUSAL] {
        0 if r[PUT_LIST] > 0 => PUT,
        number @ (0 | 33 | 35 | 38) => number,
        _ => PLAIN,
    })
}

/// What the replayed tree is lent at the most.
pub const LENT: Room = Room { nodes: 2_000, probabilities: 3_000, first: 100, second: 100 };

fn tree_record(random: &mut Random) -> Record {
    let mut t = small(random, tree_terms);
    if random.below(40) == 0 {
        t.sigma = Default::default();
    }
    let mut room = LENT;
    if random.below(20) == 0 {
        let slices = [&mut room.nodes, &mut room.probabilities, &mut room.first, &mut room.second];
        slices.into_iter().for_each(|length| *length = random.below(*length as u64 / 4) as usize);
    }
    let mut r = inputs(13, &t);
    numbers(&mut r, LENGTHS, [room.nodes, room.probabilities, room.first, room.second].into_iter().map(|n| n as u64));
    match treebasedbondpricer::tree_value(&t, room).0 {
        Err(refusal) => refused(r, refusal),
        Ok((mut value, count)) => {
            if t.puts.starts.is_empty() {
                value = published(|| published::tree(&t)).expect("the published text accepts");
            }
            floats(&mut r, VALUE, &[value]);
            r[NODES] = count;
            r
        }
    }
}

/// The refusals of the tree value that can be met by what a record holds.
const TREE: [u64; 20] = [1, 2, 3, 4, 5, 6, 7, 8, 20, 21, 22, 23, 25, 26, 27, 33, 34, 35, 38, 44];
/// Of any other kind, beside those that are counted one by one.
pub const PLAIN: u64 = 100;
/// Accepted with a put.
pub const PUT: u64 = 101;

/// What is counted of a tree value or a spread: its refusal, or, accepted, whether there are puts, or calls and so many nodes.
fn counted(r: &Record, nodes: u64) -> u64 {
    match r[REFUSAL] {
        0 if r[PUT_LIST] > 0 => PUT,
        0 if r[CALL_LIST] == 0 || r[NODES] < nodes => PLAIN,
        number => number,
    }
}

/// 240 tree values: 6 of each refusal that can be met, 50 accepted with puts, 20 of any other kind, the rest with calls and some nodes.
fn tree_records(random: &mut Random) -> Vec<Record> {
    let mut left: BTreeMap<u64, u32> = TREE.into_iter().map(|number| (number, 6)).collect();
    left.extend([(PUT, 50), (PLAIN, 20), (0, 50)]);
    sorted(random, left, tree_record, |r| counted(r, 10))
}

/// Spread from price: the target stands where the spread stood.
fn spread_record(random: &mut Random) -> Record {
    let mut t = small(random, |random| spread_terms(random, false).0);
    if random.below(40) == 0 {
        t.sigma = Default::default();
    }
    let mut room = LENT;
    if random.below(20) == 0 {
        room.probabilities = random.below(60) as usize;
    }
    let target = loop {
        let x = target(random, &t, room);
        if !x.is_nan() {
            break x;
        }
    };
    t.spread = target;
    let mut r = inputs(14, &t);
    numbers(&mut r, LENGTHS, [room.nodes, room.probabilities, room.first, room.second].into_iter().map(|n| n as u64));
    let solved = bondanalytics::spread_from_price(&t, target, room, &mut |_, _| ());
    r[COUNT] = u64::from(solved.search.tried);
    match solved.spread {
        Err(refusal) => refused(r, refusal),
        Ok(mut spread) => {
            if t.puts.starts.is_empty() {
                let (found, tried) = published(|| published::spread_of(&t, target)).expect("the published text accepts");
                spread = found;
                r[COUNT] = u64::from(tried);
            }
            floats(&mut r, VALUE, &[spread]);
            r
        }
    }
}

/// So many records of each kind, as they come.
pub fn sorted(random: &mut Random, mut left: BTreeMap<u64, u32>, record: fn(&mut Random) -> Record, kind: fn(&Record) -> u64) -> Vec<Record> {
    let mut records = Vec::new();
    while left.values().any(|&count| count > 0) {
        let next = record(random);
        if let Some(count) = left.get_mut(&kind(&next)).filter(|count| **count > 0) {
            *count -= 1;
            records.push(next);
        }
    }
    records
}

/// 122 spreads from prices: 3 of each refusal of the tree value, 6 each of 29 and 36, 20 accepted with puts, 10 of any other kind, 20 with calls.
fn spread_records(random: &mut Random) -> Vec<Record> {
    let mut left: BTreeMap<u64, u32> = TREE.into_iter().map(|number| (number, 3)).collect();
    left.extend([(29, 6), (36, 6), (PUT, 20), (PLAIN, 10), (0, 20)]);
    sorted(random, left, spread_record, |r| counted(r, 0))
}

fn sizes_record(random: &mut Random) -> Record {
    let mut t = small(random, sized_terms);
    if random.below(40) == 0 {
        t.sigma = Default::default();
    }
    let places = if random.below(4) == 0 { random.below(60) as usize } else { LENT.nodes };
    let mut r = inputs(20, &t);
    r[LENGTHS] = places as u64;
    match sizing::sizes(&t, places).0 {
        Err(refusal) => refused(r, refusal),
        Ok(s) => {
            numbers(&mut r, COUNT, [s.nodes, s.probabilities, s.row, s.count].into_iter());
            r
        }
    }
}

/// 112 sizings: 4 of each refusal that a record can hold, the rest accepted with some nodes, half of them with puts.
fn sizes_records(random: &mut Random) -> Vec<Record> {
    let mut left: BTreeMap<u64, u32> = SIZED.into_iter().filter(|&number| number != 37).map(|number| (u64::from(number), 4)).collect();
    left.extend([(0, 22), (PUT, 22)]);
    sorted(random, left, sizes_record, |r| match r[REFUSAL] {
        0 if r[COUNT + 3] < 10 => PLAIN,
        0 if r[PUT_LIST] > 0 => PUT,
        number => number,
    })
}

fn straight_record(random: &mut Random) -> Record {
    let t = small(random, terms::terms);
    let mut r = inputs(15, &t);
    match bondpricer::straight_value(t.settlement, t.code, &t.leg, t.spread, &t.pillars) {
        Err(refusal) => refused(r, refusal),
        Ok(_) => {
            let value = published(|| published::straight(t.settlement, t.code, &t.leg, t.spread, &t.pillars)).expect("the published text accepts");
            floats(&mut r, VALUE, &[value]);
            r
        }
    }
}

fn yield_record(random: &mut Random, kind: u64) -> Record {
    let t = small(random, terms::terms);
    let rate = Rate { compounding: random.below(6) as u32, frequency: [1, 2, 4, 12, 365, 7][random.below(6) as usize] };
    let mut r = inputs(kind, &t);
    (r[RATE], r[RATE + 1]) = (u64::from(rate.compounding), u64::from(rate.frequency));
    if kind == 16 {
        let y = random.between(-0.3, 0.5);
        floats(&mut r, RATE + 2, &[y]);
        return match bondanalytics::price_from_yield(t.settlement, t.code, &t.leg, rate, y) {
            Err(refusal) => refused(r, refusal),
            Ok(_) => {
                let (price, derivative) =
                    published(|| published::price(t.settlement, t.code, &t.leg, rate.compounding, rate.frequency, y)).expect("the published text accepts");
                floats(&mut r, VALUE, &[price, derivative]);
                r
            }
        };
    }
    let target = random.between(-20.0, 200.0);
    floats(&mut r, RATE + 2, &[target]);
    let (answer, evaluations) = bondanalytics::yield_from_price(t.settlement, t.code, &t.leg, rate, target);
    r[COUNT] = u64::from(evaluations);
    match answer {
        Err(refusal) => refused(r, refusal),
        Ok(_) => {
            let y = published(|| published::yield_of(t.settlement, t.code, &t.leg, rate.compounding, rate.frequency, target)).expect("the published text accepts");
            floats(&mut r, VALUE, &[y]);
            r
        }
    }
}

/// Notices few enough for a record, with no NaN.
fn few_notices(random: &mut Random) -> Notices {
    loop {
        let mut n = good(random);
        if random.below(2) == 0 {
            damage(random, &mut n);
        }
        if parallel(&n) && n.series.len() <= FLOWS && !n.calls.strikes.iter().any(|x| x.is_nan()) {
            return n;
        }
    }
}

fn notice_record(random: &mut Random) -> Record {
    let n = few_notices(random);
    let mut r = [0; WORDS];
    (r[0], r[1]) = (18, n.series.len() as u64);
    let lists = [&n.series, &n.versions, &n.actions, &n.calls.starts, &n.calls.ends];
    for (i, list) in lists.into_iter().enumerate() {
        numbers(&mut r, 2 + 8 * i, list.iter().map(|&n| u64::from(n)));
    }
    floats(&mut r, 42, &n.calls.strikes);
    match notices::call_list(&n) {
        Err(refusal) => refused(r, refusal),
        Ok(calls) => {
            r[COUNT] = calls.starts.len() as u64;
            numbers(&mut r, LISTS, calls.starts.iter().map(|&n| u64::from(n)));
            numbers(&mut r, LISTS + FLOWS, calls.ends.iter().map(|&n| u64::from(n)));
            floats(&mut r, LISTS + 2 * FLOWS, &calls.strikes);
            r
        }
    }
}

/// 100 lists of notices: 10 of each refusal that a record can hold, 5 accepted without an entry, 45 with some.
fn notice_records(random: &mut Random) -> Vec<Record> {
    let mut left: BTreeMap<u64, u32> = [3, 4, 5, 42, 43].into_iter().map(|number| (number, 10)).collect();
    left.extend([(PLAIN, 5), (0, 45)]);
    sorted(random, left, notice_record, |r| if r[REFUSAL] == 0 && r[COUNT] == 0 { PLAIN } else { r[REFUSAL] })
}

/// A line of the closing sheet: a bond number, and a value with its count or a refusal with its place.
fn sheet_record(random: &mut Random) -> Record {
    let bond = bond_number(random);
    let mut r = [0; WORDS];
    (r[0], r[1]) = (19, u64::from(bond));
    let answer = if random.below(8) == 0 {
        let refusal = Refusal { number: random.below(100) as u32, place: random.below(513) as u32 };
        (r[2], r[3], r[4]) = (1, u64::from(refusal.number), u64::from(refusal.place));
        Err(refusal)
    } else {
        let x = loop {
            let x = value(random);
            if !x.is_nan() {
                break x;
            }
        };
        let count = random.bits() >> (30 + random.below(34));
        (r[3], r[4]) = (x.to_bits(), count);
        Ok((x, count))
    };
    let (number, place, line) = sheet::line(bond, &answer);
    (r[REFUSAL], r[REFUSAL + 1]) = (u64::from(number), u64::from(place));
    for (i, &byte) in line.iter().enumerate() {
        r[VALUE + i / 8] |= u64::from(byte) << (8 * (i % 8));
    }
    r
}

/// Writes a sample; `kinds` says which entries there are.
pub fn write(path: &str, seed: u64, kinds: &[u64]) {
    assert!(published::AVAILABLE, "the published source is not beside the repository");
    let mut random = Random(seed);
    let mut bytes = Vec::new();
    for &kind in kinds {
        let records: Vec<Record> = match kind {
            1..=11 => (0..8).map(|_| elementary_record(&mut random, kind)).collect(),
            12 => grid_records(&mut random),
            13 => tree_records(&mut random),
            14 => spread_records(&mut random),
            15 => (0..60).map(|_| straight_record(&mut random)).collect(),
            18 => notice_records(&mut random),
            19 => (0..200).map(|_| sheet_record(&mut random)).collect(),
            20 => sizes_records(&mut random),
            21 => table_records(&mut random),
            22 => book_records(&mut random),
            _ => (0..60).map(|_| yield_record(&mut random, kind)).collect(),
        };
        bytes.extend(records.iter().flatten().flat_map(|word| word.to_le_bytes()));
    }
    std::fs::File::create(path).and_then(|mut file| file.write_all(&bytes)).expect("the sample is written");
}
