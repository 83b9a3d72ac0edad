//! Times of library and reference on the same inputs, taken by turns.

use reference::table::NUMBERS;
use std::hint::black_box;

/// An input of the check: parts 1, 2 and 3, for which part 4 is not looked at, since no term came as a range.
pub type Parts = [Vec<u8>; 3];

/// Library and reference accept every input, with the same bound and the same table. The inputs have 64 variables, so that every
/// number of the tables is written.
pub fn assert_alike(inputs: &[Parts]) {
    let (mut table, mut other) = (vec![0; NUMBERS], vec![1; NUMBERS]);
    for parts in inputs {
        let ours = feedcheck::check(&parts[0], &parts[1], &parts[2], &[], &mut table);
        let theirs = reference::check(&parts[0], &parts[1], &parts[2], &[], &mut other);
        assert!(ours.is_ok() && ours.ok() == theirs.ok() && table == other);
    }
}

/// Seconds of processor time that this thread has taken, which other programs on the machine disturb less than elapsed time.
pub fn processor_seconds() -> f64 {
    #[repr(C)]
    struct Time {
        seconds: i64,
        nanoseconds: i64,
    }
    extern "C" {
        fn clock_gettime(clock: i32, time: *mut Time) -> i32;
    }
    const THREAD: i32 = 3;
    let mut time = Time { seconds: 0, nanoseconds: 0 };
    assert_eq!(unsafe { clock_gettime(THREAD, &mut time) }, 0);
    time.seconds as f64 + time.nanoseconds as f64 / 1e9
}

/// How often the calls on an input are timed in a run.
const TURNS: usize = 20;

/// The number of calls that are timed together, so that reading the clock counts little.
const CALLS: usize = 5;

/// Microseconds of processor time of a call. A call that is not timed goes before, since the last one read other bytes.
fn time<T, A>(input: &T, mut call: impl FnMut(&T) -> A) -> f64 {
    black_box(call(input));
    let start = processor_seconds();
    for _ in 0..CALLS {
        black_box(call(input));
    }
    (processor_seconds() - start) * 1e6 / CALLS as f64
}

/// A run: microseconds of a call of the library, and of the reference, by turns, the fastest time of each input, and the mean of
/// these over the inputs. From time to time a machine takes up to half as long again for everything; the fastest times leave
/// that out.
pub fn run<T, A, B>(inputs: &[T], mut library: impl FnMut(&T) -> A, mut reference: impl FnMut(&T) -> B) -> [f64; 2] {
    let mut least = vec![[f64::INFINITY; 2]; inputs.len()];
    for _ in 0..TURNS {
        for (input, least) in inputs.iter().zip(&mut least) {
            least[0] = least[0].min(time(input, &mut library));
        }
        for (input, least) in inputs.iter().zip(&mut least) {
            least[1] = least[1].min(time(input, &mut reference));
        }
    }
    [0, 1].map(|which| least.iter().map(|least| least[which]).sum::<f64>() / inputs.len() as f64)
}

/// The median of the figures, the least and the greatest.
pub fn summary(figures: impl IntoIterator<Item = f64>) -> [f64; 3] {
    let mut figures: Vec<f64> = figures.into_iter().collect();
    figures.sort_by(f64::total_cmp);
    let middle = (figures[(figures.len() - 1) / 2] + figures[figures.len() / 2]) / 2.0;
    [middle, figures[0], figures[figures.len() - 1]]
}

/// The same as text.
pub fn spread(figures: impl IntoIterator<Item = f64>) -> String {
    let [middle, least, greatest] = summary(figures);
    format!("median {middle:.2}, from {least:.2} to {greatest:.2}")
}
