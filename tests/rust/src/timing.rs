//! Times the library beside plain Rust, for the benches of readers.

use std::time::Instant;

const WARM_UP: u32 = 1_000;
/// Rounds of a comparison.
pub const ROUNDS: usize = 21;
/// Calls of each of the two in a round.
pub const REPETITIONS: u32 = 500;

/// Microseconds for each of `repetitions` calls.
fn time(repetitions: u32, mut call: impl FnMut()) -> f64 {
    let start = Instant::now();
    for _ in 0..repetitions {
        call();
    }
    start.elapsed().as_secs_f64() * 1e6 / f64::from(repetitions)
}

fn median(mut values: Vec<f64>) -> f64 {
    values.sort_by(f64::total_cmp);
    values[values.len() / 2]
}

/// Prints the median times of both, for each of what they read, and of their
/// ratios.
pub fn report(what: &str, mut library: impl FnMut(), mut rust: impl FnMut()) {
    time(WARM_UP, &mut library);
    time(WARM_UP, &mut rust);
    let (mut library_times, mut rust_times, mut ratios) = (vec![], vec![], vec![]);
    for round in 0..ROUNDS {
        // Each goes first in every other round.
        let (library_time, rust_time) = if round % 2 == 0 {
            let first = time(REPETITIONS, &mut library);
            (first, time(REPETITIONS, &mut rust))
        } else {
            let first = time(REPETITIONS, &mut rust);
            (time(REPETITIONS, &mut library), first)
        };
        library_times.push(library_time);
        rust_times.push(rust_time);
        ratios.push(library_time / rust_time);
    }
    println!("library {:9.2} us per {what}", median(library_times));
    println!("Rust    {:9.2} us per {what}", median(rust_times));
    println!("ratio   {:9.2} (library / Rust)", median(ratios));
}
