//! The book entry.
use crate::{cbooks, Lent, PATTERN};
use reading::book::{Book, Closed, Named};
use reading::Refusal;

/// Beside a refusal values, sum and counts must be zero, and values past the size always.
pub fn book_value(book: &Book, lent: &mut Lent) -> Result<Closed, Named> {
    let (mut place, mut bond, mut values, mut sum, mut counts) = (0xdead_beef, 0xdead_beef, [PATTERN; 32], PATTERN, [0xdead_beef; 8]);
    let ((nodes, nodes_len), [(probabilities, probabilities_len), (first, first_len), (second, second_len)]) = lent.slices();
    let number = unsafe {
        cbooks::gutirapeo_book_value(
            book.settlement,
            book.codes.as_ptr(),
            book.codes.len(),
            book.flow_counts.as_ptr(),
            book.flow_counts.len(),
            book.leg.days.as_ptr(),
            book.leg.days.len(),
            book.leg.kinds.as_ptr(),
            book.leg.kinds.len(),
            book.leg.amounts.as_ptr(),
            book.leg.amounts.len(),
            book.units.as_ptr(),
            book.units.len(),
            book.call_counts.as_ptr(),
            book.call_counts.len(),
            book.calls.starts.as_ptr(),
            book.calls.starts.len(),
            book.calls.ends.as_ptr(),
            book.calls.ends.len(),
            book.calls.strikes.as_ptr(),
            book.calls.strikes.len(),
            book.put_counts.as_ptr(),
            book.put_counts.len(),
            book.puts.starts.as_ptr(),
            book.puts.starts.len(),
            book.puts.ends.as_ptr(),
            book.puts.ends.len(),
            book.puts.strikes.as_ptr(),
            book.puts.strikes.len(),
            book.per_year.as_ptr(),
            book.per_year.len(),
            book.max_steps.as_ptr(),
            book.max_steps.len(),
            book.spreads.as_ptr(),
            book.spreads.len(),
            book.desks.as_ptr(),
            book.desks.len(),
            book.alpha,
            book.sigma.times.as_ptr(),
            book.sigma.times.len(),
            book.sigma.sigmas.as_ptr(),
            book.sigma.sigmas.len(),
            book.pillars.days.as_ptr(),
            book.pillars.days.len(),
            book.pillars.factors.as_ptr(),
            book.pillars.factors.len(),
            nodes,
            nodes_len,
            probabilities,
            probabilities_len,
            first,
            first_len,
            second,
            second_len,
            &mut place,
            &mut bond,
            &mut values,
            &mut sum,
            &mut counts,
        )
    };
    let size = if number == 0 { book.size() } else { 0 };
    assert!(values[size..].iter().all(|x| x.to_bits() == 0), "a value past the last bond, or beside refusal {number}");
    if number != 0 {
        assert!(sum.to_bits() == 0 && counts == [0; 8], "refusal {number} left a sum or a count");
        return Err(Named { bond, refusal: Refusal { number, place } });
    }
    assert_eq!((place, bond), (0, 0), "an accepted book names a place or a bond");
    Ok(Closed { values: values[..size].to_vec(), sum, counts })
}
