//! Day counts: 0 Actual/365, 1 Actual/360, 2 30E/360.

/// The greatest code that is known.
pub const LAST_CODE: u32 = 2;

/// Days from 1 March of the year 0 to 1 January 1900, day 0.
const BEFORE: i64 = 693_901;
/// The days of 400 years.
const ERA: i64 = 146_097;

/// Year, month and day in the proleptic Gregorian calendar. Years begin in March here, so that a leap day is a year's last; whole
/// spans of 400 years go first.
pub fn civil(day: u32) -> (i64, i64, i64) {
    let since = i64::from(day) + BEFORE;
    let (era, of_era) = (since / ERA, since % ERA);
    let year = (of_era - of_era / 1_460 + of_era / 36_524 - of_era / 146_096) / 365;
    let of_year = of_era - (365 * year + year / 4 - year / 100);
    // From March on five months have 153 days.
    let from_march = (5 * of_year + 2) / 153;
    let of_month = of_year - (153 * from_march + 2) / 5 + 1;
    let month = if from_march < 10 { from_march + 3 } else { from_march - 9 };
    (400 * era + year + i64::from(month <= 2), month, of_month)
}

/// ISDA 2006, 4.16(g): 360 × (Y2 − Y1) + 30 × (M2 − M1) + (D2 − D1), where a 31st counts as the 30th at both ends.
fn thirty_e(from: u32, to: u32) -> i64 {
    let ((y1, m1, d1), (y2, m2, d2)) = (civil(from), civil(to));
    let (d1, d2) = (if d1 == 31 { 30 } else { d1 }, if d2 == 31 { 30 } else { d2 });
    360 * (y2 - y1) + 30 * (m2 - m1) + (d2 - d1)
}

/// The time of a day under a code that is known.
pub fn year_fraction(settlement: u32, code: u32, day: u32) -> f64 {
    let actual = i64::from(day) - i64::from(settlement);
    match code {
        0 => actual as f64 / 365.0,
        1 => actual as f64 / 360.0,
        2 => thirty_e(settlement, day) as f64 / 360.0,
        _ => unreachable!("an unknown code is refused before a time is wanted"),
    }
}

#[cfg(test)]
mod tests {
    use super::*;
    use std::vec::Vec;

    /// The number of a date, counted day by day from 1 January 1900.
    fn dates() -> Vec<(i64, i64, i64)> {
        let leap = |y: i64| y % 4 == 0 && y % 100 != 0 || y % 400 == 0;
        let (mut date, mut all) = ((1900, 1, 1), Vec::new());
        for _ in 0..=200_000 {
            all.push(date);
            let (y, m, d) = date;
            let days = [31, if leap(y) { 29 } else { 28 }, 31, 30, 31, 30, 31, 31, 30, 31, 30, 31];
            date = match (d == days[m as usize - 1], m) {
                (false, _) => (y, m, d + 1),
                (true, 12) => (y + 1, 1, 1),
                (true, _) => (y, m + 1, 1),
            };
        }
        all
    }

    #[test]
    fn every_day_has_its_date() {
        for (day, date) in dates().into_iter().enumerate() {
            assert_eq!(civil(day as u32), date, "day {day}");
        }
    }

    #[test]
    fn thirty_e_days_of_known_pairs() {
        let all = dates();
        let number = |date| all.iter().position(|&d| d == date).unwrap() as u32;
        let known = [
            ((2026, 1, 30), (2026, 1, 31), 0),
            ((2026, 1, 31), (2026, 1, 30), 0),
            ((2025, 2, 28), (2025, 3, 1), 3),
            ((2024, 2, 28), (2024, 3, 1), 3),
            ((2024, 2, 29), (2024, 3, 1), 2),
            ((2024, 2, 29), (2024, 3, 31), 31),
            ((2025, 12, 31), (2026, 1, 31), 30),
            ((2025, 2, 28), (2025, 8, 31), 182),
            ((2025, 8, 31), (2026, 2, 28), 178),
            ((2026, 1, 31), (2025, 12, 31), -30),
            ((1900, 1, 1), (2447, 7, 31), 197_129),
        ];
        for (from, to, days) in known {
            assert_eq!(thirty_e(number(from), number(to)), days, "{from:?} to {to:?}");
        }
        assert_eq!(number((2026, 1, 30)), 46_050);
    }

    #[test]
    fn times_are_days_over_the_length_of_the_year() {
        assert_eq!(year_fraction(46_050, 0, 46_051), 1.0 / 365.0);
        assert_eq!(year_fraction(46_050, 1, 46_051), 1.0 / 360.0);
        assert_eq!(year_fraction(46_050, 2, 46_051).to_bits(), 0);
        assert_eq!(year_fraction(46_051, 2, 46_020), -30.0 / 360.0);
    }

    #[test]
    fn a_later_day_never_has_a_smaller_time() {
        for settlement in [0, 58, 59, 46_050, 46_051, 200_000] {
            for code in 0..=LAST_CODE {
                for day in 0..200_000 {
                    assert!(year_fraction(settlement, code, day) <= year_fraction(settlement, code, day + 1), "{settlement} {code} {day}");
                }
            }
        }
    }
}
