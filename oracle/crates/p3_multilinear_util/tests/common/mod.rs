//! What the tests of refused input share.

use std::panic::{AssertUnwindSafe, catch_unwind};

use p3_field::{Base, Element};
use p3_multilinear_util::point::Point;

/// The message of an assertion that says no more.
pub const UNEQUAL: &str = "assertion `left == right` failed";

pub fn one(number: u32) -> Element {
    Base::new(number).into()
}

pub fn all(numbers: &[u32]) -> Vec<Element> {
    numbers.iter().map(|&number| one(number)).collect()
}

pub fn point(numbers: &[u32]) -> Point<Element> {
    Point::new(all(numbers))
}

/// What the call gives, or the message with which it panics.
pub fn run<T>(call: impl FnOnce() -> T) -> Result<T, String> {
    catch_unwind(AssertUnwindSafe(call)).map_err(|payload| match payload.downcast::<String>() {
        Ok(message) => *message,
        Err(payload) => payload.downcast::<&str>().unwrap().to_string(),
    })
}

pub fn panics<T>(message: &str, call: impl FnOnce() -> T) {
    let got = run(call).err().expect("no panic");
    assert!(got.contains(message), "{got}");
}
