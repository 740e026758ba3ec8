//! Calls that document 01 refuses and that do not come back from the unchanged
//! Rust files, as docs/DIFFERENCES.md lists them: no memory, no end, no stack.
//! Each runs in a process of its own.

#[allow(dead_code)]
mod common;

use std::env;
use std::hint::black_box;
use std::iter::{Product, Sum};
use std::ops::{Add, AddAssign, Mul, MulAssign, Neg, Sub, SubAssign};
use std::os::unix::process::ExitStatusExt;
use std::process::{Command, Stdio};
use std::thread::sleep;
use std::time::Duration;

use common::{all, one, panics, point};
use p3_field::{Base, Element, Field, PrimeCharacteristicRing, WidthOne};
use p3_matrix::dense::RowMajorMatrixView;
use p3_multilinear_util::eq_batch::eval_eq_batch;
use p3_multilinear_util::point::Point;
use p3_multilinear_util::poly::Poly;
use p3_multilinear_util::split_eq::SplitEq;

const DEBUG: bool = cfg!(debug_assertions);

type Split = SplitEq<Base, Element>;

/// Calls that ask for 2^62 bytes.
const TABLES: [fn(); 8] = [
    || keep(point(&[0; 58]).equality_weights_msb()),
    || keep(point(&[0; 58]).equality_weights_lsb()),
    || keep(Poly::new_from_point(&all(&[0; 58]), one(5))),
    || keep(Poly::new_next_from_point(&all(&[0; 58]))),
    || keep(Split::new_packed(&point(&[0; 116]), one(5))),
    || keep(Split::new_unpacked(&point(&[0; 117]), one(5))),
    || keep(constant().eval_base(&point(&[0; 116]))),
    || keep(constant().eval_next_base(&point(&[0; 117]))),
];

/// Folds that ask for 2^(64 - 21) elements, 2^47 bytes, in a release build.
const FOLDS: [fn(); 2] = [
    || keep(Split::new_packed(&point(&[2; 21]), one(5)).compress_suffix(constant().as_view())),
    || keep(Split::new_unpacked(&point(&[2; 21]), one(5)).compress_suffix(constant().as_view())),
];

fn constant() -> Poly<Base> {
    Poly::new(vec![Base::new(7)])
}

fn keep<T>(made: T) {
    let _ = black_box(made);
}

const CASE: &str = "REFUSED_ENDS_CASE";

/// This test again, in a process of its own that runs one case.
fn again(test: &str, case: usize) -> Command {
    let mut command = Command::new(env::current_exe().unwrap());
    command.args(["--exact", test, "--nocapture"]);
    command.env(CASE, case.to_string());
    command
}

#[test]
fn no_memory() {
    let folds = if DEBUG { &[] } else { &FOLDS[..] };
    let calls = [&TABLES[..], folds].concat();
    if let Ok(case) = env::var(CASE) {
        return calls[case.parse::<usize>().unwrap()]();
    }
    for case in 0..calls.len() {
        let ended = again("no_memory", case).output().unwrap();
        let said = String::from_utf8(ended.stderr).unwrap();
        let bytes = 1u64 << if case < TABLES.len() { 62 } else { 47 };
        let message = format!("memory allocation of {bytes} bytes failed");
        assert!(said.contains(&message), "{case}: {said}");
        // SIGABRT.
        assert_eq!(ended.status.signal(), Some(6));
    }
}

/// One point of 64 variables, and an out of one entry: a release build goes
/// down to each of the 2^64 rows all the same.
#[test]
fn a_batch_of_64_variables() {
    let batch = || {
        let (z, mut out) = (all(&[2; 64]), [one(7)]);
        let view = RowMajorMatrixView::new_col(z.as_slice());
        eval_eq_batch::<Base, Element, false>(view, &mut out, &[one(1)]);
        black_box(out)
    };
    if DEBUG {
        panics("attempt to shift left with overflow", batch);
    } else if env::var(CASE).is_ok() {
        batch();
    } else {
        let mut command = again("a_batch_of_64_variables", 0);
        let mut running = command.stdout(Stdio::null()).spawn().unwrap();
        sleep(Duration::from_secs(2));
        let ended = running.try_wait().unwrap();
        running.kill().unwrap();
        running.wait().unwrap();
        assert_eq!(ended, None);
    }
}

/// A field of one element, that takes no memory.
#[derive(Clone, Copy, Debug, PartialEq, Eq)]
struct Nothing;

macro_rules! operators {
    ($($op:ident $method:ident, $assign:ident $method_assign:ident;)*) => {
        $(
            impl $op for Nothing {
                type Output = Self;

                fn $method(self, _: Self) -> Self {
                    self
                }
            }

            impl $assign for Nothing {
                fn $method_assign(&mut self, _: Self) {}
            }
        )*
    };
}

operators! {
    Add add, AddAssign add_assign;
    Sub sub, SubAssign sub_assign;
    Mul mul, MulAssign mul_assign;
}

impl Neg for Nothing {
    type Output = Self;

    fn neg(self) -> Self {
        self
    }
}

impl Sum for Nothing {
    fn sum<I: Iterator<Item = Self>>(_: I) -> Self {
        Self
    }
}

impl Product for Nothing {
    fn product<I: Iterator<Item = Self>>(_: I) -> Self {
        Self
    }
}

impl PrimeCharacteristicRing for Nothing {
    const ZERO: Self = Self;
    const ONE: Self = Self;
    const NEG_ONE: Self = Self;
}

impl WidthOne for Nothing {}

impl Field for Nothing {
    type Packing = Self;
}

/// `new_from_point` keeps 32 bits of the count of coordinates: 2^32 of them pass
/// for none, and a release build goes down to each.
#[test]
fn two_to_the_32_coordinates() {
    let message = "2^n overflows usize.";
    let z: &[Nothing] = &[Nothing; 1 << 32];
    let new = |count: usize| black_box(Poly::new_from_point(&z[..count], Nothing)).num_evals();
    if env::var(CASE).is_ok() {
        new(1 << 32);
        return;
    }
    panics(message, || new(64));
    panics(message, || new((1 << 32) - 1));
    panics(message, || Point::new(z).equality_weights_msb());
    if DEBUG {
        panics("attempt to shift left with overflow", || new(1 << 32));
    } else {
        let ended = again("two_to_the_32_coordinates", 0).output().unwrap();
        let said = String::from_utf8(ended.stderr).unwrap();
        assert!(said.contains("has overflowed its stack"), "{said}");
        // SIGABRT.
        assert_eq!(ended.status.signal(), Some(6));
    }
}
