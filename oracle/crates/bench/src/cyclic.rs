//! Operations on cyclic weight, beside the same on shifted or next weight.

use calls::element;
use p3_field::{Base, Element};

use crate::bench::Bench;
use crate::folds::{COORDINATES, Fold, PREFIX_SHIFTED, SUFFIX_SHIFTED, our_fold};
use crate::input::{Input, MOST, elements, scale};
use crate::sessions::{FOLDED, PIECES, Session, in_pieces};
use crate::side::Who::{Next, Ours, Shifted};
use crate::side::{Side, Words};

/// The names of fold and session, the side, and the fold on both weights.
const SIDES: [(&str, &str, u32, Fold, Fold); 2] = [
    (
        "compress_prefix_cyclic",
        "session, prefix, cyclic",
        0,
        host::compress_prefix_cyclic,
        PREFIX_SHIFTED.1,
    ),
    (
        "compress_suffix_cyclic",
        "session, suffix, cyclic",
        1,
        host::compress_suffix_cyclic,
        SUFFIX_SHIFTED.1,
    ),
];

/// The weights of a session.
const SHIFTED: u32 = 1;
const CYCLIC: u32 = 3;

pub fn run(bench: &mut Bench, input: &Input) {
    let n = MOST;
    let all = || format!("k = {n}");
    bench.case("new_cyclic_from_point", n, all(), || {
        new_cyclic_from_point(input, n)
    });
    bench.case("Poly::eval_cyclic_base", n, all(), || {
        eval_cyclic_base(input, n)
    });
    for (name, _, side, cyclic, shifted) in SIDES {
        for k in COORDINATES {
            bench.case(name, n, format!("k = {k}"), || {
                let shifted = our_fold(Shifted, input, n, k, shifted);
                vec![
                    our_fold(Ours, input, n, k, cyclic),
                    shifted.shown(move |out| with_first_row(input, n, k, side, &out)),
                ]
            });
        }
    }
    for (_, name, side, ..) in SIDES {
        for k in FOLDED {
            for piece in PIECES {
                bench.case(name, n, in_pieces(k, piece), || {
                    let fed = |who, weight| Session::new(input, n, k).fed(who, side, weight, piece);
                    let shifted = fed(Shifted, SHIFTED);
                    vec![
                        fed(Ours, CYCLIC),
                        shifted.shown(move |out| with_first_row(input, n, k, side, &out)),
                    ]
                });
            }
        }
    }
}

/// The next table is shown with the last row's eq moved to row 0.
fn new_cyclic_from_point(input: &Input, k: usize) -> Vec<Side<'_>> {
    let (point, last) = (input.coordinates(k), last_eq(input, k));
    let next = Side::lent(Next, 4 << k, |out| host::new_next_from_point(point, out));
    vec![
        Side::lent(Ours, 4 << k, |out| host::new_cyclic_from_point(point, out)),
        next.shown(move |table| {
            let mut table = elements(&table);
            table[0] += last;
            table[(1 << k) - 1] -= last;
            table.words()
        }),
    ]
}

/// The next value is shown so too.
fn eval_cyclic_base(input: &Input, n: usize) -> Vec<Side<'_>> {
    let (table, point) = (input.words(n), input.coordinates(n));
    let moved = last_eq(input, n) * (Base::new(table[0]) - Base::new(table[(1 << n) - 1]));
    let next = Side::whole(Next, |out| host::poly_eval_next_base(table, point, out));
    vec![
        Side::whole(Ours, |out| host::poly_eval_cyclic_base(table, point, out)),
        next.shown(move |value| (element(&value) + moved).words().to_vec()),
    ]
}

/// A shifted out with the last row's weight times row 0 added.
fn with_first_row(input: &Input, n: usize, k: usize, side: u32, out: &[u32]) -> Vec<u32> {
    let weight = scale() * last_eq(input, k);
    let apart = if side == 0 { 1 } else { 1 << k };
    let row = input.words(n).iter().step_by(apart);
    let places = out.chunks_exact(4).zip(row);
    places
        .flat_map(|(place, &word)| (element(place) + weight * Base::new(word)).words())
        .collect()
}

/// The product of the coordinates.
fn last_eq(input: &Input, k: usize) -> Element {
    elements(input.coordinates(k)).into_iter().product()
}
