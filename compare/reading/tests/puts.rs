//! Puts: their checks, the grid's two sides and the walk, on known terms.
use reading::bondanalytics;
use reading::bondevents;
use reading::terms::{Calls, Leg, Pillars, Sigma};
use reading::treebasedbondpricer::{tree_value, Room, Terms};
use reading::{Outcome, Refusal};

const ROOM: Room = Room { nodes: 1_000, probabilities: 1_000, first: 50, second: 50 };

/// Coupons of 5 at one and two years and a redemption of 100 at two, on two steps, factors of 1.
fn bond() -> Terms {
    Terms {
        settlement: 0,
        code: 0,
        leg: Leg { days: vec![365, 730, 730], kinds: vec![0, 0, 1], amounts: vec![5.0, 5.0, 100.0] },
        units: 100.0,
        calls: Calls::default(),
        puts: Calls::default(),
        settings: (1, 512),
        alpha: 0.0,
        sigma: Sigma { times: vec![0.0], sigmas: vec![0.0] },
        spread: 0.0,
        pillars: Pillars { days: vec![0, 730], factors: vec![1.0, 1.0] },
    }
}

/// Entries on one day each.
fn on(entries: &[(u32, f64)]) -> Calls {
    Calls {
        starts: entries.iter().map(|e| e.0).collect(),
        ends: entries.iter().map(|e| e.0).collect(),
        strikes: entries.iter().map(|e| e.1).collect(),
    }
}

fn value(calls: &[(u32, f64)], puts: &[(u32, f64)]) -> Outcome<f64> {
    tree_value(&Terms { calls: on(calls), puts: on(puts), ..bond() }, ROOM).0.map(|(value, _)| value)
}

fn refused<T>(number: u32, place: u32) -> Outcome<T> {
    Err(Refusal { number, place })
}

#[test]
fn the_lower_with_the_call_then_the_higher_with_the_put_then_the_cashflow() {
    assert_eq!(value(&[], &[]), Ok(110.0));
    assert_eq!(value(&[], &[(365, 120.0)]), Ok(125.0));
    assert_eq!(value(&[], &[(365, 104.0)]), Ok(110.0));
    assert_eq!(value(&[(365, 99.0)], &[(365, 98.0)]), Ok(104.0));
    assert_eq!(value(&[(365, 99.0)], &[(365, 99.0)]), Ok(104.0));
    assert_eq!(value(&[(365, 99.0)], &[(0, 120.0)]), Ok(120.0));
    assert_eq!(value(&[(365, 120.0)], &[(365, 119.0)]), Ok(124.0));
}

#[test]
fn the_highest_put_is_kept() {
    assert_eq!(value(&[], &[(365, 120.0), (365, 130.0), (365, 125.0)]), Ok(135.0));
    assert_eq!(value(&[], &[(365, 130.0), (365, 125.0), (365, 120.0)]), Ok(135.0));
}

#[test]
fn a_put_above_the_call() {
    assert_eq!(value(&[(365, 99.0)], &[(365, 99.5)]), refused(38, 1));
    assert_eq!(value(&[(0, 90.0), (365, 99.0)], &[(365, 99.5), (0, 91.0)]), refused(38, 0));
    // On different days of one step.
    assert_eq!(value(&[(300, 99.0)], &[(400, 99.5)]), refused(38, 1));
    // The lowest call and the highest put of a step meet.
    assert_eq!(value(&[(365, 99.0), (365, 120.0)], &[(365, 80.0), (365, 110.0)]), refused(38, 1));
}

#[test]
fn a_price_that_cannot_be_made_comes_before_a_put_above_the_call() {
    // No principal is left on the day of maturity: 20 of either side, before 38 at step 0.
    assert_eq!(value(&[(0, 90.0), (730, 99.0)], &[(0, 91.0)]), refused(20, 0));
    assert_eq!(value(&[(0, 90.0)], &[(0, 91.0), (730, 50.0)]), refused(20, 0));
    // 27 of the calls before 20 of the puts.
    let t = Terms { units: 1e-306, calls: on(&[(0, 90.0)]), puts: on(&[(730, 50.0)]), ..bond() };
    assert_eq!(tree_value(&t, ROOM), (refused(27, 0), false));
    let t = Terms { units: 1e-305, calls: on(&[(0, 1.0)]), puts: on(&[(0, 90.0)]), ..bond() };
    assert_eq!(bondevents::grid(0, 0, &t.leg, t.units, &t.calls, &t.puts, t.settings), refused(27, 0));
}

#[test]
fn more_than_64_puts_are_37_after_every_2() {
    let most = on(&[(365, 50.0); 64]);
    let many = on(&[(365, 50.0); 65]);
    assert!(tree_value(&Terms { puts: most, ..bond() }, ROOM).0.is_ok());
    let mut t = Terms { puts: many, ..bond() };
    t.leg.days[0] = 200_001;
    assert_eq!(tree_value(&t, ROOM), (refused(37, 0), true));
    let solved = bondanalytics::spread_from_price(&t, 100.0, ROOM, &mut |_, _| ());
    assert_eq!((solved.spread, solved.search.tried, solved.in_the_input), (refused(37, 0), 0, true));
    let short = Pillars { days: vec![0, 730], factors: vec![1.0] };
    assert_eq!(tree_value(&Terms { pillars: short, ..t.clone() }, ROOM), (refused(2, 0), true));
    t.puts.strikes.pop();
    assert_eq!(tree_value(&t, ROOM), (refused(2, 0), true));
}

#[test]
fn puts_are_checked_right_after_calls() {
    let bad = |calls: &[(u32, f64)], puts: &[(u32, f64)]| value(calls, puts).unwrap_err();
    assert_eq!(bad(&[(1, 1.0), (200_001, 1.0)], &[(200_001, 1.0)]), Refusal { number: 3, place: 1 });
    assert_eq!(bad(&[(1, 1.0), (1, 0.0)], &[(1, 0.0)]), Refusal { number: 4, place: 1 });
    let mut t = Terms { puts: on(&[(1, 1.0), (1, 1_000_001.0)]), sigma: Sigma { times: vec![-1.0], sigmas: vec![0.0] }, ..bond() };
    assert_eq!(tree_value(&t, ROOM), (refused(4, 1), true));
    t = Terms { calls: on(&[(9, 1.0), (9, 1.0)]), puts: on(&[(9, 1.0)]), ..bond() };
    (t.calls.ends[1], t.puts.ends[0]) = (8, 8);
    assert_eq!(tree_value(&t, ROOM), (refused(5, 1), true));
    t.calls = Calls::default();
    assert_eq!(tree_value(&t, ROOM), (refused(5, 0), true));
}

#[test]
fn a_spread_meets_38_at_its_first_try() {
    let t = Terms { calls: on(&[(365, 99.0)]), puts: on(&[(365, 99.5)]), ..bond() };
    let solved = bondanalytics::spread_from_price(&t, 100.0, ROOM, &mut |_, _| ());
    assert_eq!((solved.spread, solved.search.tried, solved.in_the_input), (refused(38, 1), 1, false));
}

#[test]
fn a_put_does_not_hide_a_continuation_that_is_not_finite() {
    let t = Terms {
        leg: Leg { days: vec![1460; 3], kinds: vec![0, 0, 1], amounts: vec![-1e12, -0.6e12, 1.0] },
        units: 1.0,
        puts: on(&[(365, 100.0)]),
        settings: (1, 4),
        alpha: 0.05,
        sigma: Sigma { times: vec![0.0], sigmas: vec![0.01] },
        pillars: Pillars { days: (0..5).map(|year| 365 * year).collect(), factors: vec![1.0, 7e-294, 9.1e-294, 900.0, 900.0] },
        ..bond()
    };
    assert_eq!(tree_value(&t, ROOM), (refused(27, 1), false));
}
