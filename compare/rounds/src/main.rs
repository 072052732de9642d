//! Compares the proved library with the second reading of document 01, with the hardware and with the published text.
//!
//! rounds [--long] [--seed N] [NAME...]
//! rounds --sample FILE KIND...
//!
//! Exits with 1 where an answer differs, and with 2 where none does but a refusal that a round must meet was not met: then the terms of
//! this seed say too little, or a refusal is given no more. With a seed that is fixed neither is chance.
//!
//! The quick round takes seconds; the long one has 10^7 cases for each elementary function and 10^6 or more for each entry.
mod bookexamples;
mod bookrecords;
mod books;
mod bookterms;
mod calllists;
mod desks;
mod elementary;
mod faults;
mod grid;
mod monthends;
mod notices;
mod random;
mod record;
mod sample;
mod sheet;
mod sizing;
mod spreads;
mod spreadterms;
mod straight;
mod table;
mod tablerecords;
mod tally;
mod terms;
mod tree;
mod yields;

use tally::Found;

fn main() {
    let mut long = false;
    let mut seed = 1;
    let mut sample = None;
    let mut names = Vec::new();
    let mut words = std::env::args().skip(1);
    while let Some(word) = words.next() {
        match word.as_str() {
            "--long" => long = true,
            "--sample" => sample = words.next(),
            "--seed" => seed = words.next().and_then(|n| n.parse().ok()).expect("--seed takes a number"),
            _ => names.push(word),
        }
    }
    let known = std::cell::RefCell::new(Vec::new());
    let wanted = |name: &str| {
        known.borrow_mut().push(name.to_owned());
        names.is_empty() || names.iter().any(|n| n == name)
    };
    // A refusal of the published text unwinds; its message is of no interest.
    std::panic::set_hook(Box::new(|_| {}));
    if let Some(path) = sample {
        let kinds: Vec<u64> = names.iter().filter_map(|n| n.parse().ok()).collect();
        sample::write(&path, seed, &kinds);
        return;
    }
    let mut found = elementary::round(long, seed, &wanted);
    let entries: [(&str, fn(bool, u64) -> Found); 12] = [
        ("grid", grid::round),
        ("tree", tree::round),
        ("monthends", monthends::round),
        ("calllists", calllists::round),
        ("straight", straight::round),
        ("yields", yields::round),
        ("spreads", spreads::round),
        ("notices", notices::round),
        ("sheet", sheet::round),
        ("sizing", sizing::round),
        ("table", table::round),
        ("books", books::round),
    ];
    for (name, round) in entries {
        if wanted(name) {
            found = found + round(long, seed);
        }
    }
    if let Some(name) = names.iter().find(|name| !known.borrow().contains(name)) {
        println!("there is no round {name}; the rounds are {}", known.borrow().join(", "));
        std::process::exit(3);
    }
    if !published::AVAILABLE {
        println!("the published source is not beside the repository: compared with the reading alone");
    }
    match found {
        Found { differences: 0, unmet: 0 } => println!("no differences"),
        Found { differences: 0, unmet } => {
            println!("no differences, but {unmet} refusals not met");
            std::process::exit(2);
        }
        Found { differences, unmet } => {
            println!("{differences} differences, {unmet} refusals not met");
            std::process::exit(1);
        }
    }
}
