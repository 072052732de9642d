//! The spread by sigma table, from single readings of the tree value.
use crate::sheet::printed;
use crate::treebasedbondpricer::{tree_value, Room, Terms};
use crate::Outcome;
use alloc::format;
use alloc::string::String;
use alloc::{vec, vec::Vec};

/// 16 rows of 16 cells and a newline.
pub const MOST_BYTES: usize = 16 * (16 * 16 + 1);

/// The refusal's number and place, the page's length, and all its bytes.
pub type Page = (u32, u32, u32, Vec<u8>);

/// What a single call answers, in 16 characters; the count isn't shown.
pub fn text(answer: &Outcome<(f64, u64)>) -> String {
    let shown = match answer {
        Err(refusal) => format!("#{}", refusal.number),
        Ok((x, _)) => printed(*x).unwrap_or_else(|| String::from("#32")),
    };
    format!("{shown:>16}")
}

/// The terms of a cell's single call.
pub fn single(t: &Terms, shift: f64, spread: f64) -> Terms {
    let mut alone = t.clone();
    alone.sigma.sigmas.iter_mut().for_each(|sigma| *sigma += shift);
    alone.spread = spread;
    alone
}

/// Whether a sigma of a cell's single call isn't finite or lies outside 0 to 10.
pub fn outside(alone: &Terms) -> bool {
    !alone.sigma.sigmas.iter().all(|sigma| (0.0..=10.0).contains(sigma))
}

fn cell(t: &Terms, shift: f64, spread: f64, room: Room) -> String {
    let alone = single(t, shift, spread);
    if outside(&alone) {
        return format!("{:>16}", "#46");
    }
    text(&tree_value(&alone, room).0)
}

pub fn table(t: &Terms, spreads: &[f64], shifts: &[f64], room: Room) -> Page {
    if !(1..=16).contains(&spreads.len()) || !(1..=16).contains(&shifts.len()) {
        return (45, 0, 0, vec![0; MOST_BYTES]);
    }
    let mut page = String::new();
    for &shift in shifts {
        for &spread in spreads {
            page.push_str(&cell(t, shift, spread, room));
        }
        page.push('\n');
    }
    let mut bytes = page.into_bytes();
    let length = bytes.len() as u32;
    bytes.resize(MOST_BYTES, 0);
    (0, 0, length, bytes)
}
