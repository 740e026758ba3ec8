//! What the unchanged Rust files do past document 01's limits, as
//! docs/DIFFERENCES.md lists it: 21 coordinates, alone and beside what does not
//! fit them.

#[allow(dead_code)]
mod common;

use common::{UNEQUAL, all, one, panics, point};
use p3_field::{Base, Element};
use p3_multilinear_util::point::Point;
use p3_multilinear_util::poly::Poly;
use p3_multilinear_util::split_eq::SplitEq;

const DEBUG: bool = cfg!(debug_assertions);

const ABOVE: &str = "assertion failed: self.num_variables() <= poly.num_variables()";

type Split = SplitEq<Base, Element>;

const SPLITS: [fn(&Point<Element>, Element) -> Split; 2] = [Split::new_packed, Split::new_unpacked];

fn constant() -> Poly<Base> {
    Poly::new(vec![Base::new(7)])
}

#[test]
fn values_of_21_coordinates() {
    let (twos, threes) = (all(&[2; 21]), all(&[3; 21]));
    let power = |number| (0..21).fold(one(1), |product, _| product * one(number));
    let last = (1 << 21) - 1;
    assert_eq!(point(&[2; 21]).equality_at_vertex(last), Some(power(2)));
    // 2pq - p - q + 1 is 8.
    assert_eq!(Point::eval_eq::<Element>(&twos, &threes), power(8));
    // r (0 - 1) + 1 is -1.
    assert_eq!(Point::<Base>::eval_select(Base::new(0), &twos), -one(1));
    // Row 1 follows row 0.
    let (zeros, mut row) = (all(&[0; 21]), all(&[0; 21]));
    row[20] = one(1);
    assert_eq!(Point::eval_next(&zeros, &row), (one(0), one(1), one(0)));
}

/// The weight of the last row is 2^21, and the table's sum is 1.
#[test]
fn tables_of_21_coordinates() {
    let power = one(1 << 21);
    let twos = all(&[2; 21]);
    let sum = |table: &[Element]| table.iter().copied().sum::<Element>();
    for table in [
        point(&[2; 21]).equality_weights_msb(),
        point(&[2; 21]).equality_weights_lsb(),
        Poly::new_from_point(&twos, one(1)).into_evals(),
    ] {
        assert_eq!(table.last(), Some(&power));
        assert_eq!(sum(&table), one(1));
    }
    // The row before it has one 0 among 20 times 1: -2^20.
    let next = Poly::new_next_from_point(&twos).into_evals();
    assert_eq!(next.last(), Some(&(power - one(1 << 20))));
    assert_eq!(sum(&next), one(1));
}

#[test]
fn two_points_of_which_one_has_21_coordinates() {
    for (z, row) in [(21, 0), (0, 21)] {
        let (z, row) = (all(&vec![2; z]), all(&vec![3; row]));
        panics("Points must have the same number of variables", || {
            Point::eval_eq::<Element>(&z, &row)
        });
        panics(UNEQUAL, || Point::eval_next(&z, &row));
    }
}

/// `compress_suffix` of a release build asks for memory that there cannot be: see
/// refused_ends.rs.
#[test]
fn a_constant_at_21_coordinates() {
    let (words, z) = (constant(), point(&[2; 21]));
    let elements = Poly::new(all(&[7]));
    panics(UNEQUAL, || words.eval_base(&z));
    panics(UNEQUAL, || elements.eval_ext::<Base>(&z));
    panics(UNEQUAL, || words.eval_next_base(&z));
    panics(ABOVE, || words.compress_prefix(&z, one(5)));
    for new in SPLITS {
        let split = new(&z, one(5));
        panics(UNEQUAL, || split.eval_base(words.as_view()));
        panics(UNEQUAL, || split.eval_ext(elements.as_view()));
        panics(UNEQUAL, || split.eval_next_base(words.as_view()));
        panics(ABOVE, || split.compress_prefix(words.as_view()));
        panics(ABOVE, || split.compress_prefix_shifted(words.as_view()));
        panics(ABOVE, || split.compress_suffix_shifted(words.as_view()));
        if DEBUG {
            let message = "attempt to subtract with overflow";
            panics(message, || split.compress_suffix(words.as_view()));
            panics(message, || words.compress_suffix(&z, one(5)));
        }
    }
}

#[test]
fn accumulating_no_coordinates_into_2_to_the_21() {
    for new in SPLITS {
        let mut out = vec![one(7); 1 << 21];
        panics(UNEQUAL, || {
            new(&point(&[]), one(5)).accumulate_into(&mut out, None)
        });
        assert!(out.iter().all(|&entry| entry == one(7)));
    }
}
