//! The spread by sigma table's entry.
use crate::withterms::with_terms;
use crate::Lent;
use reading::table::Page;
use reading::treebasedbondpricer::Terms;

/// Refusal number, place, length and page. The terms' own spread isn't handed over.
pub fn spread_table(terms: &Terms, spreads: &[f64], shifts: &[f64], lent: &mut Lent) -> Page {
    let (mut place, mut length, mut page) = (0xdead_beef, 0xdead_beef, [0xa5; 4112]);
    let ((nodes, nodes_len), [(probabilities, probabilities_len), (first, first_len), (second, second_len)]) = lent.slices();
    let number = unsafe {
        with_terms!(gutirapeo_spread_table, [], terms, [], [
            spreads.as_ptr(),
            spreads.len(),
            shifts.as_ptr(),
            shifts.len(),
            nodes,
            nodes_len,
            probabilities,
            probabilities_len,
            first,
            first_len,
            second,
            second_len,
            &mut place,
            &mut length,
            &mut page,
        ])
    };
    (number, place, length, page.to_vec())
}
