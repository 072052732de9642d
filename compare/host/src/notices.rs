//! The call list entry.
use crate::{c, PATTERN};
use reading::notices::Notices;
use reading::terms::Calls;
use reading::{Outcome, Refusal};

/// Places past the last entry, or all after a refusal, must be zero, and an accepted call has place 0.
pub fn call_list(n: &Notices) -> Outcome<Calls> {
    let (mut place, mut count) = (0xdead_beef, 0xdead_beef);
    let (mut starts, mut ends, mut strikes) = ([9; 64], [9; 64], [PATTERN; 64]);
    let number = unsafe {
        c::gutirapeo_call_list(
            n.series.as_ptr(),
            n.series.len(),
            n.versions.as_ptr(),
            n.versions.len(),
            n.actions.as_ptr(),
            n.actions.len(),
            n.calls.starts.as_ptr(),
            n.calls.starts.len(),
            n.calls.ends.as_ptr(),
            n.calls.ends.len(),
            n.calls.strikes.as_ptr(),
            n.calls.strikes.len(),
            &mut place,
            &mut count,
            &mut starts,
            &mut ends,
            &mut strikes,
        )
    };
    let count = count as usize;
    assert!(count <= 64, "a list of {count} entries");
    assert!(starts[count..].iter().chain(&ends[count..]).all(|&day| day == 0), "a day past the last entry");
    assert!(strikes[count..].iter().all(|x| x.to_bits() == 0), "a strike past the last entry");
    if number != 0 {
        assert_eq!(count, 0, "refusal {number} left a list");
        return Err(Refusal { number, place });
    }
    assert_eq!(place, 0, "an accepted call wrote a place");
    Ok(Calls { starts: starts[..count].to_vec(), ends: ends[..count].to_vec(), strikes: strikes[..count].to_vec() })
}
