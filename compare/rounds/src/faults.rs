//! One number wrong in several lists at once, so that the order of the lists inside the number decides the place.
use crate::random::Random;
use reading::terms::Calls;
use reading::treebasedbondpricer::Terms;

/// Puts a value somewhere into a list, or leaves it.
fn perhaps<T>(random: &mut Random, list: &mut [T], value: T) {
    if !list.is_empty() && random.below(2) == 0 {
        let i = random.below(list.len() as u64) as usize;
        list[i] = value;
    }
}

/// An entry that ends before it starts, or none.
fn perhaps_ended(random: &mut Random, entries: &mut Calls) {
    if !entries.ends.is_empty() && random.below(2) == 0 {
        let i = random.below(entries.ends.len() as u64) as usize;
        entries.ends[i] = entries.starts[i].saturating_sub(1);
    }
}

/// Terms whose lists are of equal lengths, with 3, 4 or 5 in some of them.
pub fn several(random: &mut Random, t: &mut Terms) {
    match random.below(3) {
        0 => {
            let lists = [&mut t.leg.days, &mut t.calls.starts, &mut t.calls.ends, &mut t.puts.starts, &mut t.puts.ends, &mut t.pillars.days];
            lists.into_iter().for_each(|list| perhaps(random, list, 200_001));
        }
        1 => {
            let lists = [&mut t.leg.amounts, &mut t.calls.strikes, &mut t.puts.strikes, &mut t.sigma.times, &mut t.sigma.sigmas, &mut t.pillars.factors];
            lists.into_iter().for_each(|list| perhaps(random, list, f64::NAN));
        }
        _ => [&mut t.calls, &mut t.puts].into_iter().for_each(|entries| perhaps_ended(random, entries)),
    }
}
