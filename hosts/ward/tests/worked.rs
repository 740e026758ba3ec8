//! Document 01's worked examples, as far as the ward's calls go.

use ward::Refusal::{NoVertex, TooMany, Unreduced};
use ward::{
    Element, MODULUS, Next, compress_prefix_shifted, compress_suffix_shifted, element_bytes,
    elements, equality_at_vertex, eval_next, raw, word_bytes,
};

const F: [u32; 4] = [1, 4, 9, 16];
const ONE: Element = Element::ONE;

/// The element of a number, -a being p - a.
fn number(number: i64) -> Element {
    Element::from(number.rem_euclid(MODULUS.into()) as u32)
}

fn numbers(all: &[i64]) -> Vec<Element> {
    all.iter().map(|&one| number(one)).collect()
}

#[test]
fn equality() {
    let z = numbers(&[2, 3]);
    let rows: Vec<_> = (0..4).map(|row| equality_at_vertex(&z, row)).collect();
    let expected: Vec<_> = [2, -3, -4, 6].map(|one| Ok(number(one))).into();
    assert_eq!(rows, expected);
    assert_eq!(equality_at_vertex(&z, 4), Err(NoVertex));
    assert_eq!(equality_at_vertex(&[], 0), Ok(ONE));
    assert_eq!(equality_at_vertex(&[], 1), Err(NoVertex));
}

#[test]
fn successors() {
    let next = eval_next(&numbers(&[2, 3]), &numbers(&[5, 7]));
    let expected = Next {
        carry: number(144),
        done: number(-106),
        omega: number(210),
    };
    assert_eq!(next, Ok(expected));
    let empty = Next {
        carry: ONE,
        done: Element::ZERO,
        omega: ONE,
    };
    assert_eq!(eval_next(&[], &[]), Ok(empty));
}

#[test]
fn folds() {
    let prefix = compress_prefix_shifted(&F, &numbers(&[2]), ONE);
    assert_eq!(prefix, Ok(numbers(&[-9, -16])));
    let suffix = compress_suffix_shifted(&F, &numbers(&[3]), ONE);
    assert_eq!(suffix, Ok(numbers(&[-8, -32])));
    // The value of f moved by a row: 2·4 - 3·9 - 4·16.
    for fold in [compress_prefix_shifted, compress_suffix_shifted] {
        assert_eq!(fold(&F, &numbers(&[2, 3]), ONE), Ok(numbers(&[-83])));
        assert_eq!(fold(&F, &[], number(5)), Ok(numbers(&[0; 4])));
        assert_eq!(fold(&[7], &[], number(5)), Ok(numbers(&[0])));
    }
}

/// X·X³ = 11: a coordinate and the scale that are no plain numbers.
#[test]
fn folds_in_the_extension() {
    let (x, cube) = (Element([0, 1, 0, 0]), Element([0, 0, 0, 1]));
    // Row 1 weighs scale·(1 - X), X³ - 11.
    let expected = Element([MODULUS - 11, 0, 0, 1]);
    let fold = compress_prefix_shifted(&[7, 1], &[x], cube);
    assert_eq!(fold, Ok(vec![expected]));
}

/// eq0 with the scale, then eq1; of a point with no coordinates too.
#[test]
fn work() {
    let times = |factor: i64| Element([5, 6, 7, 8].map(|word| number(factor * word).0[0]));
    for (point, tables, places) in [
        (&[][..], vec![times(1), ONE], vec![times(0); 4]),
        (
            &[2],
            vec![times(1), number(-1), number(2)],
            vec![times(-9), times(-16)],
        ),
    ] {
        let (mut work, mut out) = (vec![7; 16 * tables.len()], vec![7; 16 * places.len()]);
        let point = element_bytes(&numbers(point));
        let scale = times(1).0;
        let answer =
            raw::compress_prefix_shifted(&word_bytes(&F), &point, scale, &mut work, &mut out);
        assert_eq!(answer, 0);
        assert_eq!(elements(&work), tables);
        assert_eq!(elements(&out), places);
    }
}

#[test]
fn limits() {
    let most = vec![ONE; 20];
    assert_eq!(equality_at_vertex(&most, (1 << 20) - 1), Ok(ONE));
    assert_eq!(equality_at_vertex(&[ONE; 21], 0), Err(TooMany));
    assert_eq!(compress_prefix_shifted(&[1], &[ONE; 21], ONE), Err(TooMany));
    assert_eq!(
        compress_suffix_shifted(&vec![1; 1 << 21], &[], ONE),
        Err(TooMany)
    );
    // The row before the last, at the vertex that it follows.
    let mut table = vec![0; 1 << 20];
    table[(1 << 20) - 1] = MODULUS - 1;
    let mut vertex = most.clone();
    vertex[19] = Element::ZERO;
    for fold in [compress_prefix_shifted, compress_suffix_shifted] {
        assert_eq!(fold(&table, &vertex, ONE), Ok(numbers(&[-1])));
    }
    for (word, answer) in [(MODULUS - 1, Ok(2)), (MODULUS, Err(Unreduced))] {
        let value = equality_at_vertex(&[word.into()], 0);
        assert_eq!(value, answer.map(number));
    }
}
