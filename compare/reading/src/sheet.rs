//! A bond's line of the closing sheet, from the decimals of the double's exact value.
use crate::Outcome;
use alloc::format;
use alloc::string::String;

/// No double has more decimals.
const ALL: usize = 1_074;

/// The refusal's number and place, and the 35 bytes.
pub type Line = (u32, u32, [u8; 35]);

/// A value with two decimals, an exact half going to the even cent; none where it is too wide.
pub fn printed(x: f64) -> Option<String> {
    if !x.is_finite() {
        return None;
    }
    let exact = format!("{:.ALL$}", x.abs());
    let (whole, decimals) = exact.split_once('.')?;
    let cut: u128 = format!("{whole}{}", &decimals[..2]).parse().ok()?;
    let (half, rest) = (decimals.as_bytes()[2], &decimals[3..]);
    let exact_half = half == b'5' && rest.bytes().all(|digit| digit == b'0');
    let cents = if half < b'5' || exact_half && cut % 2 == 0 { cut } else { cut + 1 };
    let minus = if x < 0.0 && cents > 0 { "-" } else { "" };
    (cents < 100_000_000_000_000).then(|| format!("{minus}{}.{:02}", cents / 100, cents % 100))
}

fn columns(bond: u32, value: &str, count: &str, refusal: &str) -> [u8; 35] {
    let line = format!("{bond:>6}{value:>16}{count:>8}{refusal:>4}\n");
    line.as_bytes().try_into().expect("a line has 35 bytes")
}

/// The line of an answer of the tree value.
pub fn line(bond: u32, answer: &Outcome<(f64, u64)>) -> Line {
    if !(1..=999_999).contains(&bond) {
        return (31, 0, [0; 35]);
    }
    match answer {
        Err(refusal) => (refusal.number, refusal.place, columns(bond, "", "", &format!("{}", refusal.number))),
        Ok((x, count)) => match printed(*x) {
            Some(value) if *count <= 99_999_999 => (0, 0, columns(bond, &value, &format!("{count}"), "")),
            _ => (32, 0, columns(bond, "", "", "32")),
        },
    }
}
