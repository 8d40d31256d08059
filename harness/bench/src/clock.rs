//! Processor time of this thread: other programs on the machine do not count, though they do disturb.

const CLOCK_THREAD_CPUTIME_ID: i32 = 3;

#[repr(C)]
#[derive(Default)]
struct Timespec {
    seconds: i64,
    nanoseconds: i64,
}

extern "C" {
    fn clock_gettime(clock: i32, at: *mut Timespec) -> i32;
}

/// Seconds of a short call.
const SHORT: f64 = 0.005;

fn now() -> f64 {
    let mut t = Timespec::default();
    assert_eq!(unsafe { clock_gettime(CLOCK_THREAD_CPUTIME_ID, &mut t) }, 0);
    t.seconds as f64 + t.nanoseconds as f64 * 1e-9
}

pub fn seconds(run: impl FnOnce()) -> f64 {
    let start = now();
    run();
    now() - start
}

/// The least time of each, taken in turns: at least three rounds, then until `budget` seconds are spent or 400 rounds are. A short call is made
/// once untimed before each timed one: what the other side left in the caches is not its own cost.
pub fn least<const N: usize>(mut runs: [&mut dyn FnMut(); N], budget: f64) -> [f64; N] {
    let mut best = [f64::INFINITY; N];
    let mut spent = 0.0;
    for round in 0..400 {
        if round >= 3 && spent > budget {
            break;
        }
        for (best, run) in best.iter_mut().zip(&mut runs) {
            if *best < SHORT {
                spent += seconds(&mut **run);
            }
            let t = seconds(&mut **run);
            spent += t;
            *best = best.min(t);
        }
    }
    best
}
