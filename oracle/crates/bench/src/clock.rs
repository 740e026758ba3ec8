//! One run of one side: how long a call takes, and what it leaves.

use std::hint::black_box;
use std::time::Instant;

pub struct Clock {
    /// How often a run repeats a call that can be repeated.
    times: u32,
    /// The seconds of one call.
    taken: f64,
    /// The words that the call left, where they are asked for.
    left: Option<Vec<u32>>,
}

impl Clock {
    /// Times one call, and keeps what it leaves.
    pub fn first(run: &mut dyn FnMut(&mut Clock)) -> (f64, Vec<u32>) {
        let mut clock = Self {
            times: 1,
            taken: 0.0,
            left: Some(vec![]),
        };
        run(&mut clock);
        (clock.taken, clock.left.unwrap_or_default())
    }

    /// The time of a call, of so many where it can be repeated.
    pub fn time(times: u32, run: &mut dyn FnMut(&mut Clock)) -> f64 {
        let mut clock = Self {
            times,
            taken: 0.0,
            left: None,
        };
        run(&mut clock);
        clock.taken
    }

    /// Times a call that can be repeated.
    pub fn each<T>(&mut self, mut call: impl FnMut() -> T) -> T {
        let start = Instant::now();
        for _ in 1..self.times {
            black_box(black_box(&mut call)());
        }
        let left = black_box(measured(black_box(&mut call)));
        self.taken = start.elapsed().as_secs_f64() / f64::from(self.times);
        left
    }

    /// Times a call that alters what it is lent.
    pub fn once<T>(&mut self, call: impl FnOnce() -> T) -> T {
        let start = Instant::now();
        let left = black_box(measured(call));
        self.taken = start.elapsed().as_secs_f64();
        left
    }

    /// What the call left; the words are made where they are asked for.
    pub fn leaves(&mut self, words: impl FnOnce() -> Vec<u32>) {
        if let Some(left) = &mut self.left {
            *left = words();
        }
    }

    /// What the call left becomes what this makes of it.
    pub fn shows(&mut self, shown: impl FnOnce(Vec<u32>) -> Vec<u32>) {
        self.left = self.left.take().map(shown);
    }
}

/// Valgrind counts the instructions of this function and of all that it calls.
#[inline(never)]
fn measured<T>(call: impl FnOnce() -> T) -> T {
    call()
}
