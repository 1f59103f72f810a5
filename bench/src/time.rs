//! The processor's counter, and medians.

use std::arch::x86_64::{_mm_lfence, _rdtsc};
use std::time::{Duration, Instant};

/// Ticks so far; what comes before is done, what comes after is not begun.
#[inline(always)]
pub fn ticks() -> u64 {
    // SAFETY: every x86-64 processor has these.
    unsafe {
        _mm_lfence();
        let ticks = _rdtsc();
        _mm_lfence();
        ticks
    }
}

/// Ticks and what a timed call that does nothing takes.
pub struct Clock {
    ns_per_tick: f64,
    nothing: f64,
}

#[inline(never)]
extern "C" fn nothing(a: *const u8, b: *const u8, c: usize) -> usize {
    std::hint::black_box((a, b, c)).2
}

impl Clock {
    pub fn new() -> Self {
        let (start, from) = (Instant::now(), ticks());
        while start.elapsed() < Duration::from_millis(60) {}
        let (elapsed, to) = (start.elapsed(), ticks());
        let ns_per_tick = elapsed.as_nanos() as f64 / (to - from) as f64;
        let taken = (0..10_001)
            .map(|index| {
                let from = ticks();
                let got = nothing(std::ptr::null(), std::ptr::null(), index);
                let to = ticks();
                std::hint::black_box(got);
                (to - from) as f64
            })
            .collect();
        Clock {
            ns_per_tick,
            nothing: median(taken),
        }
    }

    /// Nanoseconds of a timed call of so many ticks.
    pub fn ns(&self, ticks: f64) -> f64 {
        (ticks - self.nothing).max(0.0) * self.ns_per_tick
    }

    /// Nanoseconds of a timed call that does nothing, which are subtracted.
    pub fn overhead(&self) -> f64 {
        self.nothing * self.ns_per_tick
    }
}

/// The number in the middle.
pub fn median(numbers: Vec<f64>) -> f64 {
    part(numbers, 50)
}

/// The number that so many in a hundred are below.
pub fn part(mut numbers: Vec<f64>, percent: usize) -> f64 {
    numbers.sort_by(f64::total_cmp);
    numbers[(numbers.len() - 1) * percent / 100]
}
