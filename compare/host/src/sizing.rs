//! The sizing entry, and the node slice that it is lent.
use crate::tree::{lend, Lent};
use crate::withterms::with_terms;
use crate::Refusal;
use reading::sizing::Sizes;
use reading::treebasedbondpricer::Terms;
use reading::Outcome;

/// The sizing entry over the node slice of what is lent.
pub fn sizes(terms: &Terms, lent: &mut Lent) -> Outcome<Sizes> {
    const UNSET: u64 = 0xdead_beef;
    let (mut place, mut nodes, mut probabilities, mut row, mut count) = (0xdead_beef, UNSET, UNSET, UNSET, UNSET);
    let (slice, slice_len) = lend(&mut lent.nodes);
    let number = unsafe {
        with_terms!(gutirapeo_sizes, [], terms, [terms.spread], [
            slice,
            slice_len,
            &mut place,
            &mut nodes,
            &mut probabilities,
            &mut row,
            &mut count,
        ])
    };
    if number != 0 {
        assert_eq!([nodes, probabilities, row, count], [0; 4], "refusal {number} left lengths");
        return Err(Refusal { number, place });
    }
    assert_eq!(place, 0, "an accepted call wrote a place");
    Ok(Sizes { nodes, probabilities, row, count })
}
