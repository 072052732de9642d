//! What rests on the day and what on the time, on known days: 30 January 2026 is day 46050.
use reading::bondanalytics::{self, Rate};
use reading::bondevents::{self, Grid};
use reading::terms::{Calls, Leg, Pillars, Sigma};
use reading::treebasedbondpricer::{tree_value, Room, Terms};
use reading::{bondpricer, Outcome, Refusal};

const THE_30TH: u32 = 46_050;
const THE_31ST: u32 = 46_051;
/// 30 January 2025 and 2027.
const A_YEAR_BEFORE: u32 = 45_685;
const A_YEAR_AFTER: u32 = 46_415;
const ROOM: Room = Room { nodes: 1_000, probabilities: 1_000, first: 50, second: 50 };

/// A redemption of 100, without calls, under 30E, on two steps at the most.
fn bond(settlement: u32, maturity: u32) -> Terms {
    Terms {
        settlement,
        code: 2,
        leg: Leg { days: vec![maturity], kinds: vec![1], amounts: vec![100.0] },
        units: 100.0,
        calls: Calls::default(),
        puts: Calls::default(),
        settings: (366, 2),
        alpha: 0.0,
        sigma: Sigma { times: vec![0.0], sigmas: vec![0.0] },
        spread: 0.0,
        pillars: Pillars { days: vec![settlement, maturity + 30], factors: vec![1.0, 1.0] },
    }
}

fn call(start: u32, end: u32) -> Calls {
    Calls { starts: vec![start], ends: vec![end], strikes: vec![101.0] }
}

fn grid(t: &Terms) -> Outcome<Grid> {
    bondevents::grid(t.settlement, t.code, &t.leg, t.units, &t.calls, &t.puts, t.settings)
}

/// The steps with a call price, and the prices.
fn called(t: &Terms) -> Vec<(usize, f64)> {
    let calls = grid(t).unwrap().calls;
    calls.into_iter().enumerate().filter_map(|(step, price)| Some((step, price?))).collect()
}

fn refused<T>(number: u32, place: u32) -> Outcome<T> {
    Err(Refusal { number, place })
}

#[test]
fn maturity_times() {
    let known = [(45_714, 45_715, 3.0), (45_349, 45_380, 31.0), (46_020, THE_31ST, 30.0), (A_YEAR_BEFORE, THE_30TH, 360.0), (A_YEAR_BEFORE, THE_31ST, 360.0)];
    for (settlement, maturity, days) in known {
        assert_eq!(grid(&bond(settlement, maturity)).unwrap().maturity_time, days / 360.0);
        let actual = f64::from(maturity - settlement);
        assert_eq!(grid(&Terms { code: 1, ..bond(settlement, maturity) }).unwrap().maturity_time, actual / 360.0);
        assert_eq!(grid(&Terms { code: 0, ..bond(settlement, maturity) }).unwrap().maturity_time, actual / 365.0);
    }
}

#[test]
fn a_discrete_call_on_the_31st_after_settlement_on_the_30th_stands_at_step_1() {
    let t = Terms { calls: call(THE_31ST, THE_31ST), ..bond(THE_30TH, A_YEAR_AFTER) };
    assert_eq!(called(&t), [(1, 101.0)]);
    assert_eq!(called(&Terms { settings: (366, 1), ..t.clone() }), []);
    assert_eq!(called(&Terms { calls: call(THE_30TH, THE_30TH), ..t }), [(0, 101.0)]);
}

#[test]
fn principal_of_a_discrete_call_rests_on_the_day() {
    let mut t = Terms { calls: call(THE_30TH, THE_30TH), ..bond(A_YEAR_BEFORE, A_YEAR_AFTER) };
    t.leg = Leg { days: vec![THE_31ST, A_YEAR_AFTER], kinds: vec![1, 1], amounts: vec![40.0, 60.0] };
    assert_eq!(called(&t), [(1, 101.0)]);
    t.calls = call(THE_31ST, THE_31ST);
    assert_eq!(called(&t), [(1, 101.0 * 60.0 / 100.0)]);
}

#[test]
fn a_window_from_the_30th_to_the_31st_has_equal_bounds() {
    // A redemption on the 31st is at the window's own step, so that it counts no more; it would for a discrete call.
    let mut t = Terms { calls: call(THE_30TH, THE_31ST), ..bond(A_YEAR_BEFORE, A_YEAR_AFTER) };
    t.leg = Leg { days: vec![THE_31ST, A_YEAR_AFTER], kinds: vec![1, 1], amounts: vec![40.0, 60.0] };
    assert_eq!(called(&t), [(1, 101.0 * 60.0 / 100.0)]);
    assert_eq!(called(&Terms { settings: (366, 3), ..t }), []);
}

#[test]
fn what_is_paid_and_what_is_skipped_rests_on_the_day() {
    let mut t = Terms { calls: call(A_YEAR_BEFORE, THE_30TH), ..bond(THE_31ST, A_YEAR_AFTER) };
    assert_eq!(called(&t), []);
    t.leg = Leg { days: vec![THE_30TH, A_YEAR_AFTER], kinds: vec![1, 1], amounts: vec![40.0, 60.0] };
    assert_eq!(grid(&t).unwrap().cashflows[..3], [0.0, 0.0, 60.0]);
    (t.settlement, t.calls) = (THE_30TH, Calls::default());
    t.leg.days[0] = THE_31ST;
    assert_eq!(grid(&t).unwrap().cashflows[..3], [0.0, 40.0, 60.0]);
}

#[test]
fn an_unknown_code_comes_after_1_and_before_2() {
    let t = bond(THE_30TH, A_YEAR_AFTER);
    for code in [3, u32::MAX] {
        let t = Terms { code, leg: Leg::default(), ..t.clone() };
        let rate = Rate { compounding: 1, frequency: 0 };
        assert_eq!(grid(&t), refused(33, 0));
        assert_eq!(grid(&Terms { settings: (0, 2), ..t.clone() }), refused(1, 0));
        assert_eq!(tree_value(&t, ROOM), (refused(33, 0), true));
        assert_eq!(bondpricer::straight_value(t.settlement, t.code, &t.leg, t.spread, &t.pillars), refused(33, 0));
        assert_eq!(bondanalytics::price_from_yield(t.settlement, t.code, &t.leg, rate, 0.0), refused(33, 0));
        assert_eq!(bondanalytics::yield_from_price(t.settlement, t.code, &t.leg, rate, 100.0), (refused(33, 0), 0));
    }
}

/// What spread from price refuses, with the spreads tried, and whether the slices stay as they are.
fn quoted(t: &Terms) -> (Outcome<f64>, u32, bool) {
    let solved = bondanalytics::spread_from_price(t, 100.0, ROOM, &mut |_, _| ());
    (solved.spread, solved.search.tried, solved.in_the_input)
}

#[test]
fn two_pillars_at_one_time() {
    let mut t = bond(A_YEAR_BEFORE, A_YEAR_AFTER);
    t.pillars = Pillars { days: vec![A_YEAR_BEFORE, THE_30TH, THE_31ST, A_YEAR_AFTER], factors: vec![1.0, 0.9, -0.9, 0.8] };
    assert_eq!(tree_value(&t, ROOM), (refused(34, 2), true));
    assert_eq!(quoted(&t), (refused(34, 2), 0, true));
    assert_eq!(bondpricer::straight_value(t.settlement, t.code, &t.leg, t.spread, &t.pillars), refused(34, 2));
    for code in [0, 1] {
        assert_eq!(tree_value(&Terms { code, ..t.clone() }, ROOM), (refused(44, 2), true));
    }
    // The curve must still reach maturity by day.
    let early = Pillars { days: vec![A_YEAR_BEFORE, THE_30TH], factors: vec![1.0, 0.9] };
    assert_eq!(tree_value(&Terms { pillars: early, ..bond(A_YEAR_BEFORE, THE_31ST) }, ROOM), (refused(8, 1), true));
}

#[test]
fn a_maturity_at_time_0() {
    let mut t = bond(THE_30TH, THE_31ST);
    t.pillars.factors[1] = -1.0;
    assert_eq!(grid(&t), refused(35, 0));
    assert_eq!(tree_value(&t, ROOM), (refused(35, 0), true));
    assert_eq!(quoted(&t), (refused(35, 0), 0, true));
    let close = Pillars { days: vec![THE_30TH, THE_31ST], ..t.pillars.clone() };
    assert_eq!(tree_value(&Terms { pillars: close, ..t.clone() }, ROOM), (refused(34, 1), true));
    t.pillars.factors[1] = 1.0;
    assert_eq!(bondpricer::straight_value(t.settlement, t.code, &t.leg, 0.5, &t.pillars), Ok(100.0));
    let rate = Rate { compounding: 1, frequency: 2 };
    assert_eq!(bondanalytics::price_from_yield(t.settlement, t.code, &t.leg, rate, 0.04), Ok((100.0, -0.0)));
    for code in [0, 1] {
        assert!(grid(&Terms { code, ..t.clone() }).is_ok());
    }
}
