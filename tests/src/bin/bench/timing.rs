//! Medians of times, and how they are told.

use std::time::{Duration, Instant};

pub const ROUNDS_MOST: usize = 1_001;
const ROUNDS_LEAST: usize = 5;
/// After this time there are no further rounds, but for the least number.
pub const ENOUGH: Duration = Duration::from_secs(5);
/// The same for a call of a case that is one point of a picture, of which there are many.
pub const ENOUGH_FOR_A_POINT: Duration = Duration::from_millis(50);

/// Runs the works in turn, so that what else the machine does falls on all of them, and takes each one's median.
pub fn medians<const N: usize>(works: [&mut dyn FnMut(); N]) -> [Duration; N] {
    medians_within(works, ENOUGH)
}

/// As `medians`, with no further rounds after this time.
pub fn medians_within<const N: usize>(mut works: [&mut dyn FnMut(); N], enough: Duration) -> [Duration; N] {
    let mut times = [const { Vec::new() }; N];
    let began = Instant::now();
    for round in 0..ROUNDS_MOST {
        if round >= ROUNDS_LEAST && began.elapsed() > enough {
            break;
        }
        for (work, times) in works.iter_mut().zip(&mut times) {
            let began = Instant::now();
            work();
            times.push(began.elapsed());
        }
    }
    times.map(|mut times| median(&mut times))
}

pub fn median(times: &mut [Duration]) -> Duration {
    times.sort_unstable();
    times[times.len() / 2]
}

pub fn report(what: &str, library: Duration, reference: Duration) {
    let ratio = library.as_secs_f64() / reference.as_secs_f64();
    println!("{what}: library {library:.1?}, reference {reference:.1?}, ratio {ratio:.2}");
}
