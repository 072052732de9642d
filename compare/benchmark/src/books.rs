//! What a book costs beside its bonds alone: 32 bonds in one call and in 32 of the tree value, in turns, by the thread's own processor time.
use host::Lent;
use reading::book::Book;
use reading::ordinary;
use reading::treebasedbondpricer::Terms;
use std::hint::black_box;

/// Steps, and how many turns.
const SIZES: [(u32, usize); 3] = [(4, 2_000), (40, 200), (512, 12)];
/// Linux's clock of a thread's processor time.
const THREAD: i32 = 3;

#[repr(C)]
#[derive(Default)]
struct Time {
    seconds: i64,
    nanoseconds: i64,
}

extern "C" {
    fn clock_gettime(clock: i32, time: &mut Time) -> i32;
}

/// The processor time of this thread, in microseconds.
fn spent() -> f64 {
    let mut time = Time::default();
    assert_eq!(unsafe { clock_gettime(THREAD, &mut time) }, 0, "the thread has a clock");
    time.seconds as f64 * 1e6 + time.nanoseconds as f64 / 1e3
}

fn timed(call: impl FnOnce()) -> f64 {
    let start = spent();
    call();
    spent() - start
}

/// The ordinary callable bond 32 times, each with its own spread, strikes and day count.
fn bonds(steps: u32) -> Vec<Terms> {
    let one = |i: u32| {
        let mut t = ordinary::bond(steps);
        (t.code, t.spread) = (i % 2, f64::from(i) * 1e-4);
        t.calls.strikes.iter_mut().for_each(|strike| *strike += f64::from(i % 5));
        t
    };
    (0..32).map(one).collect()
}

fn middle(mut times: Vec<f64>) -> f64 {
    times.sort_by(f64::total_cmp);
    times[times.len() / 2]
}

pub fn run() {
    println!("32 bonds               in a book          alone    ratio of the best, of the middle ones");
    for (steps, turns) in SIZES {
        let (bonds, mut lent) = (bonds(steps), Lent::new(ordinary::room(steps)));
        let book = Book::of(&bonds, &(0..32).map(|i| i % 8).collect::<Vec<u32>>());
        let closed = host::book_value(&book, &mut lent).expect("the book is accepted");
        let (mut whole, mut single) = (Vec::new(), Vec::new());
        for _ in 0..turns {
            whole.push(timed(|| { let _ = black_box(host::book_value(black_box(&book), &mut lent)); }));
            single.push(timed(|| {
                for (t, value) in bonds.iter().zip(&closed.values) {
                    assert!(black_box(host::tree_value(black_box(t), &mut lent)).is_ok_and(|(x, _)| x.to_bits() == value.to_bits()));
                }
            }));
        }
        let best = |times: &[f64]| times.iter().copied().fold(f64::INFINITY, f64::min);
        let (a, b) = (best(&whole), best(&single));
        println!("{steps:5} steps {a:18.1} us {b:11.1} us {:8.4} {:8.4}", a / b, middle(whole) / middle(single));
    }
}
