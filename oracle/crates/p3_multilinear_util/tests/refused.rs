//! What the unchanged Rust files do with input that document 01 refuses, as
//! docs/DIFFERENCES.md lists it: points, tables from a point and batches. Some
//! panics are debug assertions, so that a release build goes on.

mod common;

use common::{UNEQUAL, all, one, panics, point, run};
use p3_field::{Base, Element};
use p3_matrix::dense::RowMajorMatrixView;
use p3_multilinear_util::eq_batch::eval_eq_batch;
use p3_multilinear_util::point::Point;
use p3_multilinear_util::poly::Poly;

const P: u32 = Base::MODULUS;

#[test]
fn words_not_below_p_are_reduced() {
    assert_eq!(
        Element::new([P, P + 1, u32::MAX, 0]).words(),
        [0, 1, u32::MAX % P, 0]
    );
    assert_eq!(
        Point::<Base>::eval_select(Base::new(P), &all(&[2])),
        -one(1)
    );
}

#[test]
fn vertices() {
    assert_eq!(point(&[]).equality_at_vertex(1), None);
    assert_eq!(point(&[2, 3]).equality_at_vertex(4), None);
    assert_eq!(point(&[0; 21]).equality_at_vertex(0), Some(one(1)));
    assert_eq!(point(&[1; 21]).equality_at_vertex(1 << 21), None);
    // From 64 coordinates on every usize is a vertex.
    assert_eq!(point(&[1; 64]).equality_at_vertex(usize::MAX), Some(one(1)));
}

#[test]
fn many_coordinates() {
    let tables: [fn(&[u32]) -> usize; 4] = [
        |z| point(z).equality_weights_msb().len(),
        |z| point(z).equality_weights_lsb().len(),
        |z| Poly::new_from_point(&all(z), one(5)).num_evals(),
        |z| Poly::new_next_from_point(&all(z)).num_evals(),
    ];
    for table in tables {
        assert_eq!(table(&[0; 21]), 1 << 21);
        panics("capacity overflow", || table(&[0; 59]));
        panics("capacity overflow", || table(&[0; 63]));
        panics("2^n overflows usize.", || table(&[0; 64]));
    }
    let (z, row) = (all(&[1; 21]), all(&[1; 21]));
    assert_eq!(Point::eval_eq::<Element>(&z, &row), one(1));
    assert_eq!(Point::eval_next(&z, &row), (one(0), one(0), one(1)));
    assert_eq!(Point::<Base>::eval_select(Base::new(1), &z), one(1));
}

#[test]
fn lengths_of_two_points() {
    let pairs: [(&[u32], &[u32]); 3] = [(&[2], &[]), (&[], &[2]), (&[1; 21], &[1; 20])];
    for (z, row) in pairs {
        let (z, row) = (all(z), all(row));
        panics("Points must have the same number of variables", || {
            Point::eval_eq::<Element>(&z, &row)
        });
        panics(UNEQUAL, || Point::eval_next(&z, &row));
    }
}

const SETS: bool = false;
const ADDS: bool = true;

/// A batch over columns of this width, that must give these elements, or panic
/// with a message that has these words. Out had 7 in each of its places.
fn batch(
    adds: bool,
    rows: &[u32],
    width: usize,
    scalars: &[u32],
    out: usize,
    expected: Result<&[u32], &str>,
) {
    let (rows, scalars) = (all(rows), all(scalars));
    let mut out = vec![one(7); out];
    let got = run(|| {
        let view = RowMajorMatrixView::new(&rows, width);
        match adds {
            SETS => eval_eq_batch::<Base, Element, SETS>(view, &mut out, &scalars),
            ADDS => eval_eq_batch::<Base, Element, ADDS>(view, &mut out, &scalars),
        }
        out
    });
    match (got, expected) {
        (Ok(got), Ok(expected)) => assert_eq!(got, all(expected)),
        (Err(got), Err(expected)) => assert!(got.contains(expected), "{got}"),
        (got, expected) => panic!("{got:?}, not {expected:?}"),
    }
}

/// What a release build does where a debug build panics.
fn released<'a>(expected: Result<&'a [u32], &'a str>) -> Result<&'a [u32], &'a str> {
    match cfg!(debug_assertions) {
        true => Err(UNEQUAL),
        false => expected,
    }
}

#[test]
fn batches_at_the_limits() {
    let (zeros, entries) = ([0; 21], 1 << 21);
    let mut first = vec![0; entries];
    first[0] = 1;
    batch(SETS, &zeros, 1, &[1], entries, Ok(&first));
    batch(SETS, &[], 65, &[1; 65], 1, Ok(&[65]));
    batch(ADDS, &[], 65, &[1; 65], 1, Ok(&[72]));
    for adds in [SETS, ADDS] {
        // No points: out is kept.
        batch(adds, &[], 0, &[], 3, Ok(&[7; 3]));
        // No whole rows: the stand-in of the matrix panics.
        batch(
            adds,
            &[2, 3, 5],
            2,
            &[1, 1],
            2,
            Err("the last row is short"),
        );
        batch(adds, &[2], 0, &[], 2, Err("the last row is short"));
    }
}

#[test]
fn batches_with_another_out() {
    let z = [2, 3];
    let case = |adds, n: usize, out, expected| {
        batch(adds, &z[..n], 1, &[1], out, released(expected));
    };
    case(SETS, 0, 0, Err("index out of bounds"));
    case(ADDS, 0, 0, Err("index out of bounds"));
    case(SETS, 0, 2, Ok(&[1, 7]));
    case(ADDS, 0, 2, Ok(&[8, 7]));
    case(SETS, 1, 1, Err("copy_from_slice"));
    case(ADDS, 1, 1, Ok(&[6]));
    case(SETS, 1, 3, Err("copy_from_slice"));
    case(ADDS, 1, 3, Ok(&[6, 9, 7]));
    case(SETS, 2, 0, Err("chunk size must be non-zero"));
    case(ADDS, 2, 0, Err("chunk size must be non-zero"));
    case(SETS, 2, 2, Ok(&[6, 7]));
    case(ADDS, 2, 2, Ok(&[13, 7]));
    case(SETS, 2, 5, Ok(&[2, P - 3, P - 4, 6, 7]));
    case(ADDS, 2, 5, Ok(&[9, 4, 3, 13, 7]));
    case(SETS, 2, 8, Ok(&[2, 7, P - 3, 7, P - 4, 7, 6, 7]));
    case(ADDS, 2, 8, Ok(&[9, 7, 4, 7, 3, 7, 13, 7]));
}

#[test]
fn batches_with_other_scalars() {
    let case = |rows: &[u32], width, scalars: &[u32], out, expected| {
        batch(SETS, rows, width, scalars, out, released(expected));
    };
    case(&[], 2, &[1], 1, Ok(&[1]));
    case(&[], 1, &[1, 10], 1, Ok(&[11]));
    case(&[2, 3], 2, &[1], 2, Ok(&[P - 1, 2]));
    case(&[2], 1, &[1, 10], 2, Ok(&[9, 2]));
    case(&[2, 3], 1, &[1, 10], 4, Err("copy_from_slice"));
    case(&[2, 3, 5, 7], 2, &[1], 4, Err("copy_from_slice"));
    // Columns without scalars are not a batch of no points.
    case(&[2], 1, &[], 2, Ok(&[0, 0]));
    batch(ADDS, &[2], 1, &[], 2, released(Ok(&[7, 7])));
    case(&[2, 3], 1, &[], 4, Err("copy_from_slice"));
}
