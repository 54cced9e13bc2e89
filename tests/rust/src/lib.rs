//! Tests of the libraries behind `include/flat.h` and `include/ringlist.h`, and
//! of the programs `ringlist` and `molrings`, against a model written from the
//! scope document and the change requests alone.

pub mod compare;
pub mod examples;
pub mod ffi;
pub mod generate;
pub mod guard;
pub mod host;
pub mod model;
pub mod molfiles;
pub mod plot;
pub mod program;
pub mod rng;
pub mod spoil;
pub mod stepper;
pub mod subject;
pub mod timing;

/// A value of which the compiler knows nothing more, for benches; the standard
/// library has one from Rust 1.66 on.
pub fn black_box<T>(value: T) -> T {
    // SAFETY: the value is read once and then forgotten where it was.
    unsafe {
        let copy = std::ptr::read_volatile(&value);
        std::mem::forget(value);
        copy
    }
}

/// Runs the parts of a test side by side, each by its name and seed, and sums
/// what they return.
pub fn sum_of_parts(parts: &[(&'static str, u64)], run: fn(&'static str, u64) -> u64) -> u64 {
    std::thread::scope(|scope| {
        let started: Vec<_> = parts
            .iter()
            .map(|&(name, seed)| (name, scope.spawn(move || run(name, seed))))
            .collect();
        started
            .into_iter()
            .map(|(name, part)| part.join().unwrap_or_else(|_| panic!("{name} failed")))
            .sum()
    })
}

/// The divisor FLAT_SAMPLE (1 when unset), for slow runs such as under valgrind.
pub fn sample() -> u64 {
    match std::env::var("FLAT_SAMPLE") {
        Ok(text) => text
            .parse()
            .ok()
            .filter(|&divisor| divisor > 0)
            .expect("FLAT_SAMPLE is a whole number above 0"),
        Err(_) => 1,
    }
}

/// A number of cases, or a least count, divided by FLAT_SAMPLE but never 0.
pub fn sampled(count: u64) -> u64 {
    (count / sample()).max(1)
}
