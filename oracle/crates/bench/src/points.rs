//! Products of elements, what is made from a point, and batches.

use std::hint::black_box;

use p3_field::{Base, Element};
use p3_matrix::dense::RowMajorMatrixView;
use p3_multilinear_util::eq_batch::eval_eq_batch;
use p3_multilinear_util::point::Point;
use p3_multilinear_util::poly::Poly;

use crate::bench::Bench;
use crate::input::{GIVEN, Input, MOST, SCALE, elements, given, scale};
use crate::side::Who::{C, Limit, Ours, Rust};
use crate::side::{Side, Words};
use crate::{limits, reference};

/// A row of 20 bits, some of them set.
const VERTEX: u64 = 0xa5c3f;

pub fn run(bench: &mut Bench, input: &Input) {
    bench.case("1,000 products in a chain", 0, String::new(), products);
    for k in [10, 20] {
        bench.case("new_from_point", k, format!("k = {k}"), || {
            new_from_point(input, k)
        });
    }
    let k = MOST;
    bench.case("new_next_from_point", k, format!("k = {k}"), || {
        new_next_from_point(input, k)
    });
    bench.case("equality_at_vertex", k, format!("k = {k}"), || {
        equality_at_vertex(input, k)
    });
    bench.case("eval_next", k, format!("k = {k}"), || eval_next(input, k));
    // With 64 points a table of 2^20 rows takes seconds.
    for (n, w) in [(16, 1), (16, 8), (16, 64), (20, 1), (20, 8)] {
        bench.case("eval_eq_batch", n, format!("w = {w}"), || {
            batch(input, n, w)
        });
    }
}

/// x := x y, a thousand times.
fn products() -> Vec<Side<'static>> {
    const TIMES: u64 = 1000;
    let rust = || {
        let y = given();
        (0..TIMES).fold(scale(), |product, _| product * y)
    };
    vec![
        Side::given(Rust, rust),
        Side::whole(Ours, |out| host::mul_repeat(&SCALE, &GIVEN, TIMES, out)),
        Side::lent(C, 4, |out| {
            reference::mul_repeat(&SCALE, &GIVEN, TIMES, out)
        }),
    ]
}

pub fn new_from_point(input: &Input, k: usize) -> Vec<Side<'_>> {
    let words = input.coordinates(k);
    let point = elements(words);
    vec![
        Side::given(Rust, move || Poly::new_from_point(&point, scale())),
        Side::lent(Ours, 4 << k, |out| host::new_from_point(words, SCALE, out)),
        Side::lent(C, 4 << k, |out| {
            reference::new_from_point(words, &SCALE, out)
        }),
        Side::lent(Limit, 4 << k, |out| {
            limits::new_from_point(words, &SCALE, out)
        }),
    ]
}

fn new_next_from_point(input: &Input, k: usize) -> Vec<Side<'_>> {
    let words = input.coordinates(k);
    let point = elements(words);
    vec![
        Side::given(Rust, move || Poly::new_next_from_point(&point)),
        Side::lent(Ours, 4 << k, |out| host::new_next_from_point(words, out)),
    ]
}

fn equality_at_vertex(input: &Input, k: usize) -> Vec<Side<'_>> {
    let words = input.coordinates(k);
    let point = input.point(k);
    vec![
        Side::given(Rust, move || {
            point
                .equality_at_vertex(black_box(VERTEX) as usize)
                .unwrap()
        }),
        Side::whole(Ours, |out| host::equality_at_vertex(words, VERTEX, out)),
    ]
}

fn eval_next(input: &Input, k: usize) -> Vec<Side<'_>> {
    let (point, row) = input.coordinates(2 * k).split_at(4 * k);
    let (rust_point, rust_row) = (elements(point), elements(row));
    vec![
        Side::given(Rust, move || Point::eval_next(&rust_point, &rust_row)),
        Side::whole(Ours, |out| host::eval_next(point, row, out)),
    ]
}

/// w points of n coordinates, and as many scalars.
fn batch(input: &Input, n: usize, w: usize) -> Vec<Side<'_>> {
    let points = input.coordinates(n * w);
    let scalars = &input.entries(n)[..4 * w];
    let (rust_points, rust_scalars) = (elements(points), elements(scalars));
    let mut out = vec![Element::default(); 1 << n];
    vec![
        Side::new(Rust, move |clock| {
            let view = RowMajorMatrixView::new(&rust_points[..], w);
            clock.each(|| eval_eq_batch::<Base, Element, false>(view, &mut out, &rust_scalars));
            clock.leaves(|| out.words());
        }),
        Side::lent(Ours, 4 << n, move |out| {
            host::eval_eq_batch(points, scalars, n as u64, out)
        }),
    ]
}
