//! The four split folds, and adding a point's weights to a table.

use p3_field::{Base, Element};
use p3_multilinear_util::poly::{Poly, PolyView};
use p3_multilinear_util::split_eq::SplitEq;

use crate::bench::Bench;
use crate::input::{GIVEN, Input, MOST, SCALE, elements, given, scale};
use crate::side::Who::{C, Limit, Ours, Rust};
use crate::side::{Side, Who, Words};
use crate::{limits, reference};

type Split = SplitEq<Base, Element>;

/// table, point, scale, work, out.
pub type Fold = fn(&[u32], &[u32], [u32; 4], &mut [u32], &mut [u32]) -> u32;
pub type RustFold = fn(&Split, PolyView<'_, Base>) -> Poly<Element>;

pub const PREFIX: (&str, Fold, RustFold) = ("compress_prefix", host::compress_prefix, |s, t| {
    s.compress_prefix(t)
});
pub const PREFIX_SHIFTED: (&str, Fold, RustFold) = (
    "compress_prefix_shifted",
    host::compress_prefix_shifted,
    |s, t| s.compress_prefix_shifted(t),
);
pub const SUFFIX: (&str, Fold, RustFold) = ("compress_suffix", host::compress_suffix, |s, t| {
    s.compress_suffix(t)
});
pub const SUFFIX_SHIFTED: (&str, Fold, RustFold) = (
    "compress_suffix_shifted",
    host::compress_suffix_shifted,
    |s, t| s.compress_suffix_shifted(t),
);

/// point, scale, given scale, work, out.
type Accumulate = fn(&[u32], [u32; 4], [u32; 4], &mut [u32], &mut [u32]) -> u32;

pub const COORDINATES: [usize; 4] = [1, 10, 19, 20];

pub fn run(bench: &mut Bench, input: &Input) {
    let n = MOST;
    for (name, ours, rust) in [PREFIX, PREFIX_SHIFTED, SUFFIX, SUFFIX_SHIFTED] {
        for k in COORDINATES {
            bench.case(name, n, format!("k = {k}"), || {
                let mut sides = fold(input, n, k, ours, rust);
                sides.extend(by_hand(input, n, k, name));
                sides.extend(limit(input, n, k, name));
                sides
            });
        }
    }
    for k in COORDINATES {
        bench.case("accumulate_into", k, format!("k = {k}"), || {
            accumulate(input, k)
        });
    }
}

/// Both ways of the Rust, and ours.
pub fn fold(input: &Input, n: usize, k: usize, fold: Fold, rust: RustFold) -> Vec<Side<'_>> {
    let mut sides = rust_fold(input, n, k, rust);
    sides.push(our_fold(Ours, input, n, k, fold));
    sides
}

/// With the second table of the point packed, at width one, and unpacked.
pub fn rust_fold(input: &Input, n: usize, k: usize, fold: RustFold) -> Vec<Side<'_>> {
    let news: [fn(&_, _) -> Split; 2] = [Split::new_packed, Split::new_unpacked];
    let sides = news.map(|new| {
        let point = input.point(k);
        Side::given(Rust, move || fold(&new(&point, scale()), input.table(n)))
    });
    sides.into()
}

pub fn our_fold(who: Who, input: &Input, n: usize, k: usize, fold: Fold) -> Side<'_> {
    let mut work = work(k);
    Side::lent(who, 4 << (n - k), move |out| {
        fold(input.words(n), input.coordinates(k), SCALE, &mut work, out)
    })
}

/// The plain folds in C.
fn by_hand<'a>(input: &'a Input, n: usize, k: usize, name: &str) -> Option<Side<'a>> {
    let (words, point) = (input.words(n), input.coordinates(k));
    let mut work = work(k);
    match (name, k) {
        ("compress_prefix", 10) => Some(Side::lent(C, 4 << (n - k), move |out| {
            reference::compress_prefix(words, point, &SCALE, &mut work, out)
        })),
        ("compress_suffix", 10) => Some(Side::lent(C, 4 << (n - k), |out| {
            reference::compress_suffix(words, point, &SCALE, out)
        })),
        _ => None,
    }
}

/// The plain folds in C with vectors. A fold of one place has no side.
fn limit<'a>(input: &'a Input, n: usize, k: usize, name: &str) -> Option<Side<'a>> {
    let (words, point) = (input.words(n), input.coordinates(k));
    let fold = match (name, k) {
        ("compress_prefix", 1 | 10) => limits::compress_prefix,
        ("compress_prefix", MOST) => limits::compress_suffix,
        ("compress_suffix", 1 | 10 | 19 | MOST) => limits::compress_suffix,
        _ => return None,
    };
    Some(Side::lent(Limit, 4 << (n - k), move |out| {
        fold(words, point, &SCALE, out)
    }))
}

/// The words of a work buffer.
pub fn work(k: usize) -> Vec<u32> {
    vec![0; 4 * ((1 << (k / 2)) + (1 << (k - k / 2)))]
}

/// A run adds to what the run before left.
fn accumulate(input: &Input, k: usize) -> Vec<Side<'_>> {
    let entries = input.entries(k);
    let news: [fn(&_, _) -> Split; 2] = [Split::new_packed, Split::new_unpacked];
    let sides = news.map(|new| {
        let (point, mut out) = (input.point(k), elements(entries));
        Side::new(Rust, move |clock| {
            clock.each(|| {
                let split = new(&point, scale());
                split.accumulate_into(&mut out, Some(given()));
            });
            clock.leaves(|| out.words());
        })
    });
    let mut sides = Vec::from(sides);
    let mut calls: Vec<(Who, Accumulate)> = vec![
        (Ours, host::accumulate_into),
        (C, |point, _, _, work, out| {
            reference::accumulate(point, &SCALE, &GIVEN, work, out)
        }),
    ];
    if k > 1 {
        calls.push((Limit, |point, _, _, _, out| {
            limits::accumulate(point, &SCALE, &GIVEN, out)
        }));
    }
    sides.extend(calls.into_iter().map(|(who, call)| {
        let (point, mut work, mut out) = (input.coordinates(k), work(k), entries.to_vec());
        Side::new(who, move |clock| {
            let call = || call(point, SCALE, GIVEN, &mut work, &mut out);
            assert_eq!(clock.each(call), 0);
            clock.leaves(|| out.clone());
        })
    }));
    sides
}
