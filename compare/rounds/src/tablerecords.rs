//! The spread by sigma tables of the stored sample.
use crate::random::Random;
use crate::record::*;
use crate::sample::{small, sorted, LENT, PLAIN, PUT};
use crate::table::{shifts, spreads, table_terms};
use reading::table::table;
use std::collections::BTreeMap;

/// Up to so many of them, with no NaN.
fn few(random: &mut Random, most: usize, make: fn(&mut Random) -> Vec<f64>) -> Vec<f64> {
    loop {
        let mut made = make(random);
        made.truncate(most);
        if !made.iter().any(|x| x.is_nan()) {
            return made;
        }
    }
}

/// A spread by sigma table of up to 4 columns and 2 rows.
fn table_record(random: &mut Random) -> Record {
    let t = small(random, table_terms);
    let (columns, rows) = (few(random, 4, spreads), few(random, 2, shifts));
    let mut r = inputs(21, &t);
    numbers(&mut r, LENGTHS, [LENT.nodes, LENT.probabilities, LENT.first, LENT.second].into_iter().map(|n| n as u64));
    let (number, place, length, page) = table(&t, &columns, &rows, LENT);
    (r[REFUSAL], r[REFUSAL + 1], r[COUNT]) = (u64::from(number), u64::from(place), u64::from(length));
    r[LISTS] = columns.len() as u64;
    floats(&mut r, LISTS + 1, &columns);
    r[LISTS + 5] = rows.len() as u64;
    floats(&mut r, LISTS + 6, &rows);
    for (i, &byte) in page[..length as usize].iter().enumerate() {
        r[LISTS + 8 + i / 8] |= u64::from(byte) << (8 * (i % 8));
    }
    r
}

/// Whether a table shows a number behind a hash sign.
fn shows(r: &Record, number: &str) -> bool {
    let page: Vec<u8> = r[LISTS + 8..].iter().flat_map(|word| word.to_le_bytes()).collect();
    String::from_utf8_lossy(&page).contains(number)
}

/// 100 tables: 5 are 45, 10 show 46, 5 show 32, 20 show another number, 20 show values alone with puts, 40 without.
pub fn table_records(random: &mut Random) -> Vec<Record> {
    let left = BTreeMap::from([(45, 5), (46, 10), (32, 5), (PLAIN, 20), (PUT, 20), (0, 40)]);
    sorted(random, left, table_record, |r| match r {
        r if r[REFUSAL] == 45 => 45,
        r if shows(r, "#46") => 46,
        r if shows(r, "#32") => 32,
        r if shows(r, "#") => PLAIN,
        r if r[PUT_LIST] > 0 => PUT,
        _ => 0,
    })
}
