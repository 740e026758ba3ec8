//! What the unchanged Rust files do with an out that document 01 refuses, as
//! docs/DIFFERENCES.md lists it: what out holds after a panic, and the calls of
//! the Rust that do the work of another under a second name.

#[allow(dead_code)]
mod common;

use common::{UNEQUAL, all, one, panics, point, run};
use p3_field::{Base, Element};
use p3_matrix::dense::RowMajorMatrixView;
use p3_multilinear_util::eq_batch::{eval_eq_base_batch, eval_eq_batch};
use p3_multilinear_util::poly::{Poly, PolyMaybePacked};
use p3_multilinear_util::split_eq::SplitEq;

const P: u32 = Base::MODULUS;

const DEBUG: bool = cfg!(debug_assertions);

const ABOVE: &str = "assertion failed: self.num_variables() <= poly.num_variables()";

/// Out after a call that ends, or the words of a panic, out being kept.
type Left<'a> = Result<&'a [u32], &'a str>;

const EMPTY: Left = Err("index out of bounds");
const COPY: Left = Err("copy_from_slice");
const CHUNK: Left = Err("chunk size must be non-zero");

/// Rows of this width, scalars and the entries of out, which are 7 before.
type Input<'a> = (&'a [u32], usize, &'a [u32], usize);

fn batch<const ADDS: bool>(input: Input, base: bool) -> (Result<(), String>, Vec<Element>) {
    let (rows, width, scalars, out) = input;
    let (scalars, mut out) = (all(scalars), vec![one(7); out]);
    let got = run(|| match base {
        false => {
            let rows = all(rows);
            let view = RowMajorMatrixView::new(&rows, width);
            eval_eq_batch::<Base, Element, ADDS>(view, &mut out, &scalars);
        }
        true => {
            let rows: Vec<_> = rows.iter().map(|&word| Base::new(word)).collect();
            let view = RowMajorMatrixView::new(&rows, width);
            eval_eq_base_batch::<Base, Element, ADDS>(view, &mut out, &scalars);
        }
    });
    (got, out)
}

fn same(input: Input, (got, out): (Result<(), String>, Vec<Element>), expected: Left) {
    match (got, expected) {
        (Ok(()), Ok(left)) => assert_eq!(out, all(left), "{input:?}"),
        (Err(got), Err(message)) => {
            assert!(got.contains(message), "{input:?}: {got}");
            assert!(out.iter().all(|&entry| entry == one(7)), "{input:?}");
        }
        (got, expected) => panic!("{input:?}: {got:?}, not {expected:?}"),
    }
}

/// A debug build asserts before out is written, and so does a release build
/// where it panics.
#[test]
fn batches_leave_out_where_they_panic() {
    let (z, many) = ([2, 3], [1; 65]);
    let cases: [(Input, Left, Left); 21] = [
        ((&[], 1, &[1], 0), EMPTY, EMPTY),
        ((&[], 1, &[1], 2), Ok(&[1, 7]), Ok(&[8, 7])),
        ((&[2], 1, &[1], 0), COPY, Ok(&[])),
        ((&[2], 1, &[1], 1), COPY, Ok(&[6])),
        ((&[2], 1, &[1], 3), COPY, Ok(&[6, 9, 7])),
        ((&z, 1, &[1], 0), CHUNK, CHUNK),
        ((&z, 1, &[1], 1), Ok(&[6]), Ok(&[13])),
        ((&z, 1, &[1], 2), Ok(&[6, 7]), Ok(&[13, 7])),
        ((&z, 1, &[1], 3), Ok(&[6, 7, 7]), Ok(&[13, 7, 7])),
        ((&[], 65, &many, 0), EMPTY, EMPTY),
        ((&[1; 21], 1, &[1], 0), CHUNK, CHUNK),
        ((&[1; 21], 1, &[1], 1), Ok(&[1]), Ok(&[8])),
        ((&[], 2, &[1], 1), Ok(&[1]), Ok(&[8])),
        ((&[], 1, &[1, 10], 1), Ok(&[11]), Ok(&[18])),
        ((&z, 2, &[1], 2), Ok(&[P - 1, 2]), Ok(&[6, 9])),
        ((&[2], 1, &[1, 10], 2), Ok(&[9, 2]), Ok(&[16, 9])),
        ((&[2, 3, 5, 7], 2, &[1], 4), COPY, COPY),
        ((&z, 1, &[1, 10], 4), COPY, COPY),
        ((&[], 1, &[], 1), Ok(&[0]), Ok(&[7])),
        ((&[2], 1, &[], 2), Ok(&[0, 0]), Ok(&[7, 7])),
        ((&z, 1, &[], 4), COPY, COPY),
    ];
    for (input, sets, adds) in cases {
        let expected = |released| if DEBUG { Err(UNEQUAL) } else { released };
        same(input, batch::<false>(input, false), expected(sets));
        same(input, batch::<true>(input, false), expected(adds));
    }
}

/// A matrix of no columns is a batch of no points, whatever the scalars are.
#[test]
fn scalars_without_columns() {
    for out in [0, 1, 2] {
        let input: Input = (&[], 0, &[1], out);
        let kept = vec![7; out];
        let expected = match DEBUG {
            true => Err("assertion failed: scalars.is_empty()"),
            false => Ok(kept.as_slice()),
        };
        same(input, batch::<false>(input, false), expected);
        same(input, batch::<true>(input, false), expected);
    }
}

#[test]
fn a_batch_of_21_variables_adds() {
    let (got, out) = batch::<true>((&[0; 21], 1, &[1], 1 << 21), false);
    assert_eq!(got, Ok(()));
    assert_eq!(out[0], one(8));
    assert!(out[1..].iter().all(|&entry| entry == one(7)));
}

/// In a release build these go on where `eval_eq_batch` panics, or panic where
/// it goes on, out being written in part.
#[test]
fn batches_of_base_points() {
    let z = [2, 3];
    let cases: [(Input, &str, &[u32]); 5] = [
        ((&z, 1, &[1], 2), "index out of bounds", &[6, 7]),
        (
            (&z, 1, &[1], 5),
            "index out of bounds",
            &[2, P - 3, P - 4, 6, 7],
        ),
        (
            (&z, 1, &[1], 8),
            "index out of bounds",
            &[2, 7, 7, 7, 7, 7, 7, 7],
        ),
        ((&[2, 3, 5, 7], 2, &[1], 4), "", &[4, P - 5, P - 8, 10]),
        ((&z, 1, &[1, 10], 4), "", &[2, P - 3, P - 4, 6]),
    ];
    for (input, message, left) in cases {
        let (got, out) = batch::<false>(input, true);
        if DEBUG {
            same(input, (got, out), Err(UNEQUAL));
        } else {
            assert_eq!(got.is_err(), !message.is_empty(), "{input:?}");
            assert!(got.err().unwrap_or_default().contains(message));
            assert_eq!(out, all(left), "{input:?}");
        }
    }
}

/// The one fold that is lent its out asserts in both builds.
#[test]
fn suffix_folds_into_another_out() {
    for (n, k, entries) in [
        (0, 0, 0),
        (0, 0, 2),
        (1, 0, 1),
        (1, 1, 0),
        (1, 1, 2),
        (2, 1, 1),
        (2, 1, 4),
        (21, 0, 1),
        (0, 1, 1),
        (0, 21, 1),
    ] {
        let table = Poly::new(vec![Base::new(1); 1 << n]);
        let z = point(&vec![2; k]);
        let message = if k > n { ABOVE } else { UNEQUAL };
        for new in [SplitEq::new_packed, SplitEq::new_unpacked] {
            let split: SplitEq<Base, Element> = new(&z, one(5));
            let mut out = vec![one(7); entries];
            panics(message, || {
                split.compress_suffix_into(&mut out, table.as_view())
            });
            assert_eq!(out, vec![one(7); entries]);
        }
    }
}

/// `Poly`'s folds are those of the split point. The value of a table that may be
/// packed asserts in both builds, unlike `Poly::eval_ext`.
#[test]
fn folds_and_values_under_a_second_name() {
    let (table, z) = (Poly::new(vec![Base::new(7)]), point(&[2]));
    panics(ABOVE, || table.compress_prefix(&z, one(5)));
    let message = match DEBUG {
        true => "attempt to subtract with overflow",
        false => "capacity overflow",
    };
    panics(message, || table.compress_suffix(&z, one(5)));
    for (n, k) in [(0, 1), (1, 0), (2, 1), (0, 21), (21, 0)] {
        let (table, z) = (Poly::new(vec![one(1); 1 << n]), point(&vec![2; k]));
        let table = PolyMaybePacked::<Base, Element>::from(table);
        panics(UNEQUAL, || table.eval(&z));
    }
}
