//! Every refusal of the calls on bytes, alone and before each later one. A
//! refused call leaves work and out as they were, an accepted one the bytes
//! beside them.

use ward::{Element, MODULUS, Refusal, raw, word_bytes};

/// The byte in every place of work and out before a call.
const BEFORE: u8 = 0xa5;

/// Bytes of work or out, with as many on both sides that no call may touch.
fn lend(bytes: usize, call: impl FnOnce(&mut [u8]) -> u32) -> u32 {
    let mut room = vec![BEFORE; bytes + 32];
    let answer = call(&mut room[16..16 + bytes]);
    let kept = |part: &[u8]| part.iter().all(|&byte| byte == BEFORE);
    assert!(kept(&room[..16]) && kept(&room[16 + bytes..]));
    assert!(answer == 0 || kept(&room), "refused {answer}, and written");
    answer
}

/// So many bytes of words 1, the last of them p where this is asked.
fn bytes(count: usize, unreduced: bool) -> Vec<u8> {
    let mut words = vec![1; count.div_ceil(4)];
    if let Some(last) = words.last_mut().filter(|_| unreduced) {
        *last = MODULUS;
    }
    let mut bytes = word_bytes(&words);
    // What goes is the front, so that a last word p stays whole.
    bytes.drain(..bytes.len() - count);
    bytes
}

/// Bytes of point and of out, whether a word is p, the vertex, the answer.
const VERTEX: &[(usize, usize, bool, u64, u32)] = &[
    (32, 16, false, 3, 0),
    (0, 16, false, 0, 0),
    (320, 16, false, (1 << 20) - 1, 0),
    (33, 16, false, 0, 1),
    (36, 16, false, 0, 1),
    (31, 16, false, 0, 1),
    (32, 15, false, 0, 1),
    (32, 17, false, 0, 1),
    (32, 20, false, 0, 1),
    (336, 16, false, 0, 3),
    (32, 0, false, 0, 4),
    (32, 32, false, 0, 4),
    (32, 16, true, 0, 5),
    (32, 16, false, 4, 7),
    (0, 16, false, 1, 7),
    (32, 16, false, 1 << 32, 7),
    (32, 16, false, u64::MAX, 7),
    // The first of two.
    (340, 16, false, 0, 1),
    (33, 32, false, 0, 1),
    (32, 15, true, 4, 1),
    (336, 32, false, 0, 3),
    (336, 16, true, 1 << 21, 3),
    (32, 32, true, 0, 4),
    (32, 0, false, 4, 4),
    (32, 16, true, 4, 5),
];

#[test]
fn vertex() {
    for &(point, out, unreduced, vertex, expected) in VERTEX {
        let point = bytes(point, unreduced);
        let answer = lend(out, |out| raw::equality_at_vertex(&point, vertex, out));
        assert_eq!(answer, expected, "{} {out} {vertex}", point.len());
    }
}

/// Bytes of point, row and out, which of the points has a word p, the answer.
const NEXT: &[(usize, usize, usize, [bool; 2], u32)] = &[
    (32, 32, 48, [false; 2], 0),
    (0, 0, 48, [false; 2], 0),
    (320, 320, 48, [false; 2], 0),
    (34, 32, 48, [false; 2], 1),
    (32, 28, 48, [false; 2], 1),
    (32, 32, 47, [false; 2], 1),
    (32, 32, 44, [false; 2], 1),
    (336, 336, 48, [false; 2], 3),
    (32, 16, 48, [false; 2], 4),
    (32, 32, 32, [false; 2], 4),
    (32, 32, 64, [false; 2], 4),
    (32, 32, 0, [false; 2], 4),
    (32, 32, 48, [true, false], 5),
    (32, 32, 48, [false, true], 5),
    // The first of two.
    (340, 336, 48, [false; 2], 1),
    (32, 20, 48, [false; 2], 1),
    (32, 32, 49, [true; 2], 1),
    (336, 320, 48, [false; 2], 3),
    (320, 336, 48, [false; 2], 3),
    (336, 336, 16, [true; 2], 3),
    (32, 16, 48, [true; 2], 4),
    (32, 32, 16, [true; 2], 4),
];

#[test]
fn next() {
    for &(point, row, out, unreduced, expected) in NEXT {
        let (point, row) = (bytes(point, unreduced[0]), bytes(row, unreduced[1]));
        let answer = lend(out, |out| raw::eval_next(&point, &row, out));
        assert_eq!(answer, expected, "{} {} {out}", point.len(), row.len());
    }
}

const NONE: [bool; 3] = [false; 3];

/// Bytes of table, point, work and out, which of table, point and scale has a
/// word p, the answer.
const FOLDS: &[([usize; 4], [bool; 3], u32)] = &[
    ([16, 16, 48, 32], NONE, 0),
    ([4, 0, 32, 16], NONE, 0),
    ([16, 0, 32, 64], NONE, 0),
    ([16, 32, 64, 16], NONE, 0),
    ([15, 16, 48, 32], NONE, 1),
    ([16, 17, 48, 32], NONE, 1),
    ([16, 20, 48, 32], NONE, 1),
    ([16, 16, 47, 32], NONE, 1),
    ([16, 16, 52, 32], NONE, 1),
    ([16, 16, 48, 33], NONE, 1),
    ([16, 16, 48, 28], NONE, 1),
    ([0, 0, 32, 16], NONE, 2),
    ([12, 16, 48, 32], NONE, 2),
    ([4 << 21, 0, 32, 16 << 21], NONE, 3),
    ([4 << 20, 336, 48 << 10, 16], NONE, 3),
    ([4, 16, 48, 16], NONE, 4),
    ([16, 16, 32, 32], NONE, 4),
    ([16, 16, 64, 32], NONE, 4),
    ([16, 16, 0, 32], NONE, 4),
    ([16, 16, 48, 16], NONE, 4),
    ([16, 16, 48, 64], NONE, 4),
    ([16, 16, 48, 0], NONE, 4),
    ([16, 16, 48, 32], [true, false, false], 5),
    ([16, 16, 48, 32], [false, true, false], 5),
    ([16, 16, 48, 32], [false, false, true], 5),
    // The first of two.
    ([13, 16, 48, 32], NONE, 1),
    ([12, 17, 48, 32], NONE, 1),
    ([4, 340, 48, 16], NONE, 1),
    ([16, 16, 32, 30], NONE, 1),
    ([15, 16, 48, 32], [true; 3], 1),
    ([12, 336, 48, 32], NONE, 2),
    ([0, 16, 0, 0], [true; 3], 2),
    ([4, 336, 48, 16], NONE, 3),
    ([16, 336, 0, 32], [true; 3], 3),
    ([4, 16, 48, 16], [true; 3], 4),
    ([16, 16, 48, 64], [true; 3], 4),
];

#[test]
fn folds() {
    for &(lengths, unreduced, expected) in FOLDS {
        for fold in [raw::compress_prefix_shifted, raw::compress_suffix_shifted] {
            let [table, point, work, out] = lengths;
            let (table, point) = (bytes(table, unreduced[0]), bytes(point, unreduced[1]));
            let scale = [1, 1, 1, if unreduced[2] { MODULUS } else { 1 }];
            let answer = lend(work, |work| {
                lend(out, |out| fold(&table, &point, scale, work, out))
            });
            assert_eq!(answer, expected, "{lengths:?} {unreduced:?}");
        }
    }
}

#[test]
fn typed() {
    use Refusal::*;
    let (one, p) = (Element::ONE, Element::from(MODULUS));
    let next = ward::eval_next;
    assert_eq!(ward::equality_at_vertex(&[p], 0), Err(Unreduced));
    assert_eq!(next(&[one], &[]), Err(Lengths));
    assert_eq!(next(&[one; 21], &[one; 21]), Err(TooMany));
    assert_eq!(next(&[one], &[p]), Err(Unreduced));
    for fold in [ward::compress_prefix_shifted, ward::compress_suffix_shifted] {
        assert_eq!(fold(&[], &[], one), Err(NotPower));
        assert_eq!(fold(&[1, 2, 3], &[one; 21], one), Err(NotPower));
        assert_eq!(fold(&[1], &[one], p), Err(Lengths));
        assert_eq!(fold(&[1, MODULUS], &[one], one), Err(Unreduced));
        assert_eq!(fold(&[1, 2], &[one], p), Err(Unreduced));
    }
    assert_eq!(Refusal::from_number(7), Some(NoVertex));
    assert_eq!(Refusal::from_number(6), None);
    assert_eq!(NoVertex.to_string(), "refused 7: no such row");
}
