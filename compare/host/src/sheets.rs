//! The closing sheet entry.
use crate::withterms::with_terms;
use crate::Lent;
use reading::sheet::Line;
use reading::treebasedbondpricer::Terms;

/// A bond's line: refusal number, place and bytes.
pub fn closing_line(bond: u32, terms: &Terms, lent: &mut Lent) -> Line {
    let (mut place, mut line) = (0xdead_beef, [0xa5; 35]);
    let ((nodes, nodes_len), [(probabilities, probabilities_len), (first, first_len), (second, second_len)]) = lent.slices();
    let number = unsafe {
        with_terms!(gutirapeo_closing_line, [bond], terms, [terms.spread], [
            nodes,
            nodes_len,
            probabilities,
            probabilities_len,
            first,
            first_len,
            second,
            second_len,
            &mut place,
            &mut line,
        ])
    };
    (number, place, line)
}
