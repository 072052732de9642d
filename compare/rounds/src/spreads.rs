//! Spread from price against the second reading (number, place, spread, tries, lent slices), against the published text's solver over the
//! same differences, without puts against that solver over the text's own tree, and priced again at every spread found.
use crate::faults;
use crate::random::Random;
use crate::spreadterms::{spread_terms, target, LIMITS};
use crate::tally::{published, Found, Tally};
use crate::terms;
use crate::tree::room;
use host::Lent;
use reading::bondanalytics::{bracketed_root, spread_from_price, Search, Solved};
use reading::terms::{Calls, Leg, Pillars, Sigma};
use reading::treebasedbondpricer::{Room, Terms};
use reading::{Answer, Refusal};
use std::collections::BTreeMap;

/// What a run must meet. 30 isn't there: a bracket within ±1 is as narrow as 1e-14 long before the 256th halving.
const MET: [u32; 23] = [1, 2, 3, 4, 5, 6, 7, 8, 20, 21, 22, 23, 25, 26, 27, 29, 33, 34, 35, 36, 37, 38, 44];

/// What it must meet at a spread tried after the first.
const LATER: [u32; 4] = [26, 27, 29, 36];

/// What is counted.
struct Counts {
    readings: Tally,
    solvers: Tally,
    texts: Tally,
    again: Tally,
    within: u64,
    bracketed: u64,
    tried: u32,
    /// Refusals met at a spread tried after the first.
    later: BTreeMap<u32, u64>,
}

fn number(answer: &Answer) -> u32 {
    answer.map_or_else(|r| r.number, |_| 0)
}

fn bits(answer: &Answer) -> Result<u64, Refusal> {
    answer.map(f64::to_bits)
}

/// The text's solver where the objective answers as it did before, and how often it asked; a refusal unwinds.
fn by_the_text(differences: &[(f64, Answer)]) -> (Option<f64>, u32) {
    let mut asked = 0;
    let mut objective = |spread: f64| {
        let (at, answer) = differences.get(asked).copied().expect("asked too often");
        asked += 1;
        assert_eq!(at.to_bits(), spread.to_bits());
        answer.expect("a refusal")
    };
    let root = published(|| published::root_of(&mut objective, -0.05, 0.10, -1.0));
    (root, asked as u32)
}

/// Tree value less target, by the proved code.
fn difference(t: &Terms, target: f64, lent: &mut Lent, spread: f64) -> Option<f64> {
    let (value, _) = host::tree_value(&Terms { spread, ..t.clone() }, lent).ok()?;
    Some(value - target)
}

/// The middle of a bracket at most 1e-14 wide, with differences at its ends neither both above 0 nor both below.
fn is_middle(t: &Terms, target: f64, lent: &mut Lent, found: f64, search: &Search) -> bool {
    let ends = [search.lower, search.upper].map(|end| difference(t, target, lent, end));
    let [Some(lower), Some(upper)] = ends else { return false };
    let middle = (search.lower + search.upper) / 2.0;
    middle.to_bits() == found.to_bits()
        && search.upper - search.lower <= 1e-14
        && !(lower > 0.0 && upper > 0.0)
        && !(lower < 0.0 && upper < 0.0)
}

impl Counts {
    fn new() -> Self {
        Counts {
            readings: Tally::new("spread"),
            solvers: Tally::new("spread, root"),
            texts: Tally::new("spread, text"),
            again: Tally::new("priced again"),
            within: 0,
            bracketed: 0,
            tried: 0,
            later: BTreeMap::new(),
        }
    }

    /// One set of terms and a target, in every way; `whole` asks for the text's own tree too.
    fn compare(&mut self, t: &Terms, target: f64, room: Room, whole: bool) -> (Answer, u32) {
        let mut lent = Lent::new(room);
        let (ours, tried) = host::spread_from_price(t, target, &mut lent);
        let mut differences = Vec::new();
        let theirs = spread_from_price(t, target, room, &mut |spread, answer| differences.push((spread, answer)));
        let left = if theirs.in_the_input { lent.untouched() } else { lent.zeroed() };
        let counted = theirs.search.tried;
        let agree = left && tried == counted && tried <= 386 && bits(&ours) == bits(&theirs.spread);
        self.readings.case(number(&ours), agree, || {
            format!("{t:?} {target:e} {room:?} gives {ours:?} after {tried} (slices as they must be: {left}), the reading {:?} after {counted}", theirs.spread)
        });
        self.tried = self.tried.max(tried);
        if ours.is_err() && tried > 1 {
            *self.later.entry(number(&ours)).or_default() += 1;
        }
        if published::AVAILABLE && !theirs.in_the_input {
            let text = by_the_text(&differences);
            let agree = text.1 == tried && text.0.map(f64::to_bits) == ours.ok().map(f64::to_bits);
            self.solvers.case(number(&ours), agree, || format!("{t:?} {target:e} gives {ours:?} after {tried}, the text's solver {text:?}"));
        }
        if published::AVAILABLE && whole && t.puts.starts.is_empty() && matches!(number(&ours), 0 | 29) {
            let text = published(|| published::spread_of(t, target));
            let agree = text.map(|(spread, n)| (spread.to_bits(), n)) == ours.ok().map(|spread| (spread.to_bits(), tried));
            self.texts.case(number(&ours), agree, || format!("{t:?} {target:e} gives {ours:?} after {tried}, the published text {text:?}"));
        }
        if let Ok(spread) = ours {
            self.price_again(t, target, &mut lent, spread, &theirs);
        }
        (ours, tried)
    }

    /// What is promised of every spread found.
    fn price_again(&mut self, t: &Terms, target: f64, lent: &mut Lent, found: f64, theirs: &Solved) {
        let at = difference(t, target, lent, found);
        let within = at.is_some_and(|d| d.abs() <= 1e-12);
        let middle = !within && is_middle(t, target, lent, found, &theirs.search);
        self.within += u64::from(within);
        self.bracketed += u64::from(middle);
        self.again.case(0, within || middle, || format!("{t:?} {target:e} gives {found}, which differs by {at:?}; the last bracket {:?}", theirs.search));
    }

    fn done(self) -> Found {
        let early: Vec<u32> = LATER.into_iter().filter(|number| !self.later.contains_key(number)).collect();
        if !early.is_empty() {
            println!("spread: not met after the first try: {early:?}");
        }
        let missing = self.readings.missing(&MET) + Found { unmet: early.len() as u64, ..Found::default() };
        let differences = self.readings.done() + self.solvers.done() + self.texts.done() + self.again.done();
        println!("  found: {} within 1e-12, {} the middle of a last bracket; at most {} tried", self.within, self.bracketed, self.tried);
        println!("  refused after the first try: {:?}", self.later);
        differences + missing
    }
}

/// One flow at 365 days and factors of 1.
fn bond(amount: f64) -> Terms {
    Terms {
        settlement: 0,
        code: 0,
        leg: Leg { days: vec![365], kinds: vec![1], amounts: vec![amount] },
        units: 100.0,
        calls: Calls::default(),
        puts: Calls::default(),
        settings: (1, 512),
        alpha: 0.0,
        sigma: Sigma { times: vec![0.0], sigmas: vec![0.0] },
        spread: f64::NAN,
        pillars: Pillars { days: vec![0, 365], factors: vec![1.0, 1.0] },
    }
}

/// What one flow's tree is lent.
const LEAST: Room = Room { nodes: 4, probabilities: 6, first: 1, second: 1 };

/// What can't be bracketed, and what would need a spread above 1.
fn examples(counts: &mut Counts) {
    let known = [(105.0, 1e6, 29, 7), (105.0, 1.0, 36, 6), (105.0, -1.0, 36, 6), (-105.0, -1.0, 29, 7), (-105.0, -104.9, 36, 10), (105.0, f64::NAN, 4, 0)];
    for (amount, target, refusal, tries) in known {
        let (answer, tried) = counts.compare(&bond(amount), target, LEAST, true);
        counts.readings.case(number(&answer), number(&answer) == refusal && tried == tries, || {
            format!("{amount} for {target} gives {answer:?} after {tried}, not {refusal} after {tries}")
        });
    }
    for target in LIMITS {
        let (answer, tried) = counts.compare(&bond(105.0), target, LEAST, true);
        let inside = target.abs() <= 1e15;
        let agree = if inside { tried > 0 } else { number(&answer) == 4 && tried == 0 };
        counts.readings.case(number(&answer), agree, || format!("105 for {target:e} gives {answer:?} after {tried}"));
    }
    let (answer, _) = counts.compare(&bond(105.0), 105.0, LEAST, true);
    counts.readings.case(number(&answer), answer.is_ok_and(|spread| spread.abs() < 1e-13), || format!("105 for 105 gives {answer:?}"));
}

/// Refusals that the random terms of a quick round may miss, and two numbers that aren't finite: the target comes before every amount.
fn refusals(counts: &mut Counts) {
    let sigma = Sigma { times: vec![1.0, 1.0], sigmas: vec![0.0, 0.0] };
    let puts = Calls { starts: vec![0; 65], ends: vec![0; 65], strikes: vec![1.0; 65] };
    // Two steps of ten years, at the first of them worth 1e307 for a spread of 0: not finite at the fifth spread, -0.47.
    let steep = Terms {
        leg: Leg { days: vec![7_300], kinds: vec![1], amounts: vec![1e6] },
        settings: (366, 2),
        pillars: Pillars { days: vec![0, 3_650, 7_300], factors: vec![1.0, 1e-300, 10.0] },
        ..bond(0.0)
    };
    let leg = Leg { days: vec![365, 365], kinds: vec![0, 1], amounts: vec![5.0, f64::NAN] };
    let known = [
        (Terms { sigma, ..bond(105.0) }, 105.0, (6, 1), 0),
        (Terms { puts, ..bond(105.0) }, 105.0, (37, 0), 0),
        (Terms { leg, ..bond(105.0) }, f64::NAN, (4, 0), 0),
        (steep, 1e15, (27, 1), 5),
    ];
    for (t, target, refusal, tries) in known {
        let (answer, tried) = counts.compare(&t, target, Room { nodes: 6, probabilities: 9, ..LEAST }, true);
        let agree = tried == tries && answer.is_err_and(|r| (r.number, r.place) == refusal);
        counts.readings.case(number(&answer), agree, || format!("{t:?} for {target} gives {answer:?} after {tried}, not {refusal:?} after {tries}"));
    }
}

/// The reading's solver against the text's where the objective jumps or is a line: 30 is met here.
fn solvers(cases: u32, random: &mut Random) -> Found {
    let mut tally = Tally::new("root, text");
    for _ in 0..cases {
        let size = 10f64.powf(random.between(-3.0, 7.0));
        let root = random.sign(size);
        let slope = 10f64.powf(random.between(-15.0, 6.0));
        let jump = random.below(2) == 0;
        let lowest = [-1.0, -10.0, -0.999_999, -0.05, 0.0][random.below(5) as usize];
        let (above, below) = (random.between(-0.1, 1.0), random.between(-1.0, 0.1));
        let objective = |x: f64| match jump {
            true if x < root => above,
            true => below,
            false => (root - x) * slope,
        };
        let mut search = Search::default();
        let ours = bracketed_root(&mut |x| Ok(objective(x)), -0.05, 0.10, lowest, &mut search);
        let mut asked = 0;
        let text = published(|| published::root_of(&mut |x| { asked += 1; objective(x) }, -0.05, 0.10, lowest));
        let agree = search.tried == asked && asked <= 386 && ours.ok().map(f64::to_bits) == text.map(f64::to_bits);
        tally.case(number(&ours), agree, || format!("{root} {slope} {jump} {above} {below} from {lowest}: {ours:?} after {search:?}, the text {text:?} after {asked}"));
    }
    let missing = tally.missing(&[29, 30]);
    tally.done() + missing
}

pub fn round(long: bool, seed: u64) -> Found {
    let cases = if long { 1_000_000 } else { 6_000 };
    let mut random = Random(seed);
    let mut counts = Counts::new();
    examples(&mut counts);
    refusals(&mut counts);
    for case in 0..cases {
        let (mut t, ample) = spread_terms(&mut random, long);
        let target = target(&mut random, &t, ample);
        if random.below(20) == 0 {
            faults::several(&mut random, &mut t);
        }
        if random.below(12) == 0 {
            terms::damage(&mut random, &mut t);
        }
        let room = room(&mut random, &t, ample);
        // The spread that the terms hold plays no part.
        t.spread = f64::NAN;
        let _ = counts.compare(&t, target, room, case % 8 == 0);
    }
    let alone = if published::AVAILABLE { solvers(if long { 1_000_000 } else { 20_000 }, &mut random) } else { Found::default() };
    counts.done() + alone
}
