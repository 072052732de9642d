//! The elementary functions: every result against the reading of 01; sqrt, mul_add, round and ceil
//! against the hardware's too, with 01's signs of zero.
use crate::random::Random;
use crate::tally::{Found, Tally};
use reading::{elementary as reading01, Answer};

fn compare(tally: &mut Tally, name: &str, arguments: &[f64], ours: Answer, theirs: Answer, whose: &str) {
    let same = match (ours, theirs) {
        (Ok(x), Ok(y)) => x.to_bits() == y.to_bits(),
        (Err(x), Err(y)) => x == y,
        _ => false,
    };
    tally.case(ours.map_or_else(|r| r.number, |_| 0), same, || {
        let bits: Vec<String> = arguments.iter().map(|x| format!("{:016x}", x.to_bits())).collect();
        format!("{name}({}) gives {ours:?}, {whose} {theirs:?}", bits.join(", "))
    });
}

/// A zero from round or ceil, and an exact zero of mul_add, is +0.
fn plus_zero(x: f64) -> f64 {
    if x == 0.0 {
        0.0
    } else {
        x
    }
}

type One = fn(f64) -> Answer;
type Two = fn(f64, f64) -> Answer;

/// What the hardware gives where our answer is a value.
fn hardware(name: &str, x: f64) -> Option<f64> {
    match name {
        "sqrt" => Some(x.sqrt()),
        "round" => Some(plus_zero(x.round())),
        "ceil" => Some(plus_zero(x.ceil())),
        _ => None,
    }
}

fn one(name: &'static str, ours: One, theirs: One, cases: u64, seed: u64) -> Found {
    let mut random = Random(seed);
    let mut tally = Tally::new(name);
    for _ in 0..cases {
        let x = argument(&mut random, name);
        let answer = ours(x);
        compare(&mut tally, name, &[x], answer, theirs(x), "the reading");
        if let (Ok(_), Some(y)) = (answer, hardware(name, x)) {
            compare(&mut tally, name, &[x], answer, Ok(y), "the hardware");
        }
    }
    tally.done()
}

/// Arguments of one function: of any kind, and more often where its rules change.
fn argument(random: &mut Random, name: &str) -> f64 {
    if random.below(2) == 0 {
        return random.double();
    }
    match name {
        "sqrt" => {
            let root = f64::from_bits(random.bits() >> 1);
            let root = if random.below(2) == 0 { root } else { root as f32 as f64 };
            let x = root * root;
            if x.is_finite() {
                random.beside(x)
            } else {
                f64::from_bits(random.bits() >> 1)
            }
        }
        "exp" => random.between(-720.0, 710.0),
        "exp_m1" => {
            let x = random.between(-1.0, 1.0);
            random.beside(x)
        }
        "ln" => {
            let at = [0.75, 1.0, 1.5][random.below(3) as usize];
            let x = at * 2f64.powi(random.below(2040) as i32 - 1020);
            if random.below(2) == 0 {
                random.beside(x)
            } else {
                x * random.between(0.9, 1.1)
            }
        }
        _ => random.double(),
    }
}

fn two(name: &'static str, ours: Two, theirs: Two, cases: u64, seed: u64) -> Found {
    let mut random = Random(seed);
    let mut tally = Tally::new(name);
    for _ in 0..cases {
        let a = random.double();
        let b = match random.below(4) {
            0 if name == "powf" => random.between(-720.0, 720.0) / a.abs().ln(),
            0 => random.beside(a),
            1 => -a,
            _ => random.double(),
        };
        let a = if name == "powf" && random.below(2) == 0 { a.abs() } else { a };
        compare(&mut tally, name, &[a, b], ours(a, b), theirs(a, b), "the reading");
    }
    tally.done()
}

fn three(cases: u64, seed: u64) -> Found {
    let mut random = Random(seed);
    let mut tally = Tally::new("mul_add");
    for _ in 0..cases {
        let [a, b, c] = random.triple();
        let answer = host::mul_add(a, b, c);
        compare(&mut tally, "mul_add", &[a, b, c], answer, reading01::mul_add(a, b, c), "the reading");
        if let Ok(x) = answer {
            // The hardware's zero may be −0 where the exact sum is 0; the reading has judged that.
            let y = a.mul_add(b, c);
            compare(&mut tally, "mul_add", &[a, b, c], answer, Ok(if y == 0.0 && x == 0.0 { x } else { y }), "the hardware");
        }
    }
    tally.done()
}

pub fn round(long: bool, seed: u64, wanted: &dyn Fn(&str) -> bool) -> Found {
    let cases = if long { 10_000_000 } else { 200_000 };
    let ones: [(&str, One, One); 6] = [
        ("sqrt", host::sqrt, reading01::sqrt),
        ("round", host::round, reading01::round),
        ("ceil", host::ceil, reading01::ceil),
        ("exp", host::exp, reading01::exp),
        ("exp_m1", host::exp_m1, reading01::exp_m1),
        ("ln", host::ln, reading01::ln),
    ];
    let twos: [(&str, Two, Two); 4] = [
        ("max", host::max, reading01::max),
        ("min", host::min, reading01::min),
        ("powf", host::powf, reading01::powf),
        ("midpoint", host::midpoint, reading01::midpoint),
    ];
    let mut found = Found::default();
    for (name, ours, theirs) in ones {
        if wanted(name) {
            found = found + one(name, ours, theirs, cases, seed);
        }
    }
    for (name, ours, theirs) in twos {
        if wanted(name) {
            found = found + two(name, ours, theirs, cases, seed);
        }
    }
    if wanted("mul_add") {
        found = found + three(cases, seed);
    }
    found
}
