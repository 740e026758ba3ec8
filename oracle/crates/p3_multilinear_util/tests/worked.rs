//! Document 01's worked values, computed by the unchanged Rust files.

use p3_field::{Base, Element, PrimeCharacteristicRing};
use p3_matrix::dense::RowMajorMatrixView;
use p3_multilinear_util::eq_batch::eval_eq_batch;
use p3_multilinear_util::point::Point;
use p3_multilinear_util::poly::Poly;
use p3_multilinear_util::split_eq::SplitEq;

fn base(number: i32) -> Base {
    let word = Base::new(number.unsigned_abs());
    if number < 0 { -word } else { word }
}

fn one(number: i32) -> Element {
    base(number).into()
}

fn all<const N: usize>(numbers: [i32; N]) -> Vec<Element> {
    numbers.map(one).to_vec()
}

fn point<const N: usize>(numbers: [i32; N]) -> Point<Element> {
    Point::new(all(numbers))
}

fn table<const N: usize>(numbers: [i32; N]) -> Poly<Base> {
    Poly::new(numbers.map(base).to_vec())
}

fn elements<const N: usize>(numbers: [i32; N]) -> Poly<Element> {
    Poly::new(all(numbers))
}

/// f and z.
fn f() -> Poly<Base> {
    table([1, 4, 9, 16])
}

fn z() -> Point<Element> {
    point([2, 3])
}

/// Both ways to build the split tables.
fn split<const N: usize>(at: [i32; N], scale: i32) -> [SplitEq<Base, Element>; 2] {
    let (at, scale) = (point(at), one(scale));
    [
        SplitEq::new_packed(&at, scale),
        SplitEq::new_unpacked(&at, scale),
    ]
}

#[test]
fn equality() {
    let eq = all([2, -3, -4, 6]);
    assert_eq!(z().equality_weights_msb(), eq);
    assert_eq!(z().equality_weights_lsb(), all([2, -4, -3, 6]));
    assert_eq!(
        Poly::new_from_point(z().as_slice(), Element::ONE).as_slice(),
        eq
    );
    assert_eq!(Poly::new_from_point(&[], one(5)).as_slice(), all([5]));
    assert_eq!(z().equality_at_vertex(3), Some(one(6)));
    assert_eq!(z().equality_at_vertex(4), None);
}

#[test]
fn next_table() {
    let next = Poly::new_next_from_point(z().as_slice());
    assert_eq!(next.as_slice(), all([0, 2, -3, 2]));
    assert_eq!(next.eval_ext::<Base>(&point([5, 7])), one(104));
    assert_eq!(
        Poly::<Element>::new_next_from_point(&[]).as_slice(),
        all([1])
    );
}

#[test]
fn values() {
    assert_eq!(f().eval_base(&z()), one(50));
    assert_eq!(elements([1, 4, 9, 16]).eval_ext::<Base>(&z()), one(50));
    assert_eq!(f().eval_next_base(&z()), one(13));
    for split in split([2, 3], 1) {
        assert_eq!(split.eval_base(f().as_view()), one(50));
        assert_eq!(split.eval_ext(elements([1, 4, 9, 16]).as_view()), one(50));
        assert_eq!(split.eval_next_base(f().as_view()), one(13));
    }
}

#[test]
fn folds() {
    for split in split([2], 1) {
        assert_eq!(
            split.compress_prefix(f().as_view()).as_slice(),
            all([17, 28])
        );
        assert_eq!(
            split.compress_prefix_shifted(f().as_view()).as_slice(),
            all([-9, -16])
        );
    }
    for split in split([3], 1) {
        assert_eq!(
            split.compress_suffix(f().as_view()).as_slice(),
            all([10, 30])
        );
        assert_eq!(
            split.compress_suffix_shifted(f().as_view()).as_slice(),
            all([-8, -32])
        );
    }
}

#[test]
fn next_of_two_points() {
    let (carry, done, omega) = Point::eval_next(z().as_slice(), &all([5, 7]));
    assert_eq!([carry, done, omega], [one(144), one(-106), one(210)]);
}

#[test]
fn beside_these() {
    let other = all([5, 7]);
    assert_eq!(Point::eval_eq::<Element>(z().as_slice(), &other), one(462));
    assert_eq!(
        Point::<Base>::eval_select(base(3), z().as_slice()),
        one(119)
    );

    let mut monomial = elements([1, 4, 9, 16]);
    monomial.fix_prefix_var_mut_monomial(one(2));
    assert_eq!(monomial.as_slice(), all([19, 36]));

    let mut sum = elements([1, 4, 9, 16]);
    sum.sum_prefix_var_mut();
    assert_eq!(sum.as_slice(), all([10, 20]));

    // Row i has coordinate i of both points, z and (0, 1).
    let rows = all([2, 0, 3, 1]);
    let mut out = all([0; 4]);
    eval_eq_batch::<Base, Element, false>(
        RowMajorMatrixView::new(&rows, 2),
        &mut out,
        &all([1, 10]),
    );
    assert_eq!(out, all([2, 7, -4, 6]));
}

/// The values that do not take the scale.
#[test]
fn unscaled_corners() {
    for split in split([], 5) {
        assert_eq!(split.eval_base(table([7]).as_view()), one(7));
        assert_eq!(split.eval_ext(elements([7]).as_view()), one(7));
        assert_eq!(split.eval_next_base(table([7]).as_view()), one(7));
        assert_eq!(
            split.compress_prefix(table([7]).as_view()).as_slice(),
            all([35])
        );
    }
    for split in split([3], 5) {
        assert_eq!(split.eval_next_base(table([1, 4]).as_view()), one(4));
    }
}
