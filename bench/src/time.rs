// Medians of repeated calls. What a call works on is made anew before each, outside the measured time.

use std::hint::black_box;
use std::time::{Duration, Instant};

/// The samples that a median is taken of.
pub const SAMPLES: usize = 1000;
/// The same of paired calls, which are more in a sample.
const PAIRS: usize = 250;
/// The same of calls that may take long.
const FEW: usize = 15;
/// How often what is held against each other is measured.
const TURNS: usize = 5;
/// Samples before them that do not count.
const WARM: usize = 50;

/// The median time of a call in microseconds. A sample is the mean of `batch` calls, each on tables of its own.
pub fn median<T, R>(batch: usize, mut make: impl FnMut() -> T, mut call: impl FnMut(&mut T) -> R) -> f64 {
    let mut samples = Vec::with_capacity(SAMPLES);
    for turn in 0..WARM + SAMPLES {
        let mut tables: Vec<T> = (0..batch).map(|_| make()).collect();
        let took = spent(|| {
            for one in &mut tables {
                black_box(call(black_box(one)));
            }
        });
        if turn >= WARM {
            samples.push(took.as_secs_f64() * 1e6 / batch as f64);
        }
    }
    middle(samples)
}

/// The median time in microseconds of a call that may take long: of a few, each on tables of its own.
pub fn few<T, R>(mut make: impl FnMut() -> T, mut call: impl FnMut(&mut T) -> R) -> f64 {
    let mut sample = || passed(&mut make(), &mut call) * 1e6;
    sample();
    middle((0..FEW).map(|_| sample()).collect())
}

/// The median time of a call, and the median of what it takes beyond another call, `less`, on the same tables, in microseconds.
/// A sample is the mean of `batch` pairs. Each has tables of its own, made right before: `less` runs on them once untimed, so that
/// they are at hand, then timed, and right behind it the call. What the clock itself takes is in both times.
pub fn paired<T, L, R>(
    batch: usize,
    mut make: impl FnMut() -> T,
    mut less: impl FnMut(&mut T) -> L,
    mut call: impl FnMut(&mut T) -> R,
) -> (f64, f64) {
    let (mut whole, mut beyond) = (Vec::with_capacity(PAIRS), Vec::with_capacity(PAIRS));
    for turn in 0..WARM + PAIRS {
        let (mut before, mut took) = (0.0, 0.0);
        for _ in 0..batch {
            let mut tables = make();
            black_box(less(black_box(&mut tables)));
            before += passed(&mut tables, &mut less);
            took += passed(&mut tables, &mut call);
        }
        if turn >= WARM {
            whole.push(took * 1e6 / batch as f64);
            beyond.push((took - before) * 1e6 / batch as f64);
        }
    }
    (middle(whole), middle(beyond))
}

/// Measurements that are held against each other, made by turns, and the middle of each: a processor that changes its pace does not decide.
pub fn by_turns<const N: usize>(mut measure: impl FnMut() -> [f64; N]) -> [f64; N] {
    let turns: Vec<[f64; N]> = (0..TURNS).map(|_| measure()).collect();
    std::array::from_fn(|i| middle(turns.iter().map(|turn| turn[i]).collect()))
}

/// The seconds that one call takes.
fn passed<T, R>(tables: &mut T, call: &mut impl FnMut(&mut T) -> R) -> f64 {
    let start = Instant::now();
    black_box(call(black_box(tables)));
    start.elapsed().as_secs_f64()
}

fn middle(mut samples: Vec<f64>) -> f64 {
    samples.sort_by(f64::total_cmp);
    samples[samples.len() / 2]
}

/// The shorter of the time that passed and the thread's own time on a processor. The first is exact for short work; the
/// second leaves out what the machine did for others in the middle of long work.
fn spent(work: impl FnOnce()) -> Duration {
    let own = own_time();
    let start = Instant::now();
    work();
    let passed = start.elapsed();
    passed.min(own_time() - own)
}

/// What the thread has spent on a processor so far (Linux).
fn own_time() -> Duration {
    #[repr(C)]
    struct Time {
        seconds: i64,
        nanoseconds: i64,
    }
    extern "C" {
        fn clock_gettime(clock: i32, time: *mut Time) -> i32;
    }
    const THREAD: i32 = 3;
    let mut time = Time { seconds: 0, nanoseconds: 0 };
    // SAFETY: the C library that std links writes the one struct.
    assert_eq!(unsafe { clock_gettime(THREAD, &mut time) }, 0);
    Duration::new(time.seconds as u64, time.nanoseconds as u32)
}
