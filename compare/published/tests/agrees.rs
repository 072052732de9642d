//! The second reading and the published text on random terms without puts under every code, without the library.
use published::AVAILABLE;
use random::Random;
use reading::bondanalytics::{self, Rate};
use reading::bondevents;
use reading::bondpricer;
use reading::terms::Calls;
use reading::treebasedbondpricer::{tree_value, Room, Terms};
use std::panic::{catch_unwind, set_hook, AssertUnwindSafe};

#[allow(dead_code)]
#[path = "../../rounds/src/random.rs"]
mod random;
#[allow(dead_code)]
#[path = "../../rounds/src/terms.rs"]
mod terms;

const AMPLE: Room = Room { nodes: 24_000, probabilities: 36_000, first: 2_000, second: 2_000 };

/// What the text answers; nothing where it refuses or a refusal unwinds.
fn text<T>(call: impl FnOnce() -> Option<T>) -> Option<T> {
    catch_unwind(AssertUnwindSafe(call)).ok().flatten()
}

/// The bits, both zeros being one number.
fn bits(x: f64) -> u64 {
    (x + 0.0).to_bits()
}

fn grids(t: &Terms) {
    let Ok(grid) = bondevents::grid(t.settlement, t.code, &t.leg, t.units, &t.calls, &t.puts, t.settings) else { return };
    let (time, steps, cashflows, calls) = text(|| published::grid(t.settlement, t.code, &t.leg, t.units, &t.calls, t.settings)).expect("accepted");
    assert_eq!((bits(time), steps), (bits(grid.maturity_time), grid.steps as usize), "{t:?}");
    for step in 0..=steps {
        assert_eq!(bits(cashflows[step]), bits(grid.cashflows[step]), "{t:?}");
        assert_eq!(calls[step].map(bits), grid.calls[step].map(bits), "{t:?}");
    }
}

fn values(t: &Terms) {
    if let Ok((value, count)) = tree_value(t, AMPLE).0 {
        assert_eq!(text(|| published::tree(t)).map(bits), Some(bits(value)), "{t:?}");
        assert_eq!(text(|| published::node_count(t)), Some(count), "{t:?}");
    }
    if let Ok(value) = bondpricer::straight_value(t.settlement, t.code, &t.leg, t.spread, &t.pillars) {
        let straight = text(|| published::straight(t.settlement, t.code, &t.leg, t.spread, &t.pillars));
        assert_eq!(straight.map(bits), Some(bits(value)), "{t:?}");
    }
}

fn yields(t: &Terms, rate: Rate, y: f64) {
    let Ok((price, derivative)) = bondanalytics::price_from_yield(t.settlement, t.code, &t.leg, rate, y) else { return };
    let priced = text(|| published::price(t.settlement, t.code, &t.leg, rate.compounding, rate.frequency, y));
    assert_eq!(priced.map(|(p, d)| (bits(p), bits(d))), Some((bits(price), bits(derivative))), "{t:?}");
    if let Ok(found) = bondanalytics::yield_from_price(t.settlement, t.code, &t.leg, rate, price).0 {
        let solved = text(|| published::yield_of(t.settlement, t.code, &t.leg, rate.compounding, rate.frequency, price));
        assert_eq!(solved.map(bits), Some(bits(found)), "{t:?}");
    }
}

#[test]
fn on_random_terms() {
    if !AVAILABLE {
        return;
    }
    set_hook(Box::new(|about| match about.payload().downcast_ref::<String>() {
        Some(message) if message.parse::<u32>().is_err() => eprintln!("{message}"),
        _ => {}
    }));
    let mut random = Random(5);
    for case in 0..4_000 {
        let t = Terms { code: case % 3, puts: Calls::default(), ..terms::terms(&mut random) };
        grids(&t);
        values(&t);
        let rate = Rate { compounding: random.below(5) as u32, frequency: terms::pick(&mut random, &[1, 2, 4, 12, 365]) };
        yields(&t, rate, random.between(-0.1, 0.3));
    }
}
