//! The ward app's calls for Rust programs: a safe layer over libward.a.
//!
//! include/ward.h says what each call means. The functions here take words and
//! elements, allocate what a call needs, and give back what it leaves; `raw` has
//! the calls on bytes, with nothing allocated.

#![deny(unsafe_code)]

#[allow(unsafe_code)]
pub mod raw;

use std::error;
use std::fmt;

/// The modulus of words.
pub const MODULUS: u32 = 2013265921;

/// The most coordinates of a point.
const MOST: usize = 20;

/// c0 + c1 X + c2 X^2 + c3 X^3, with X^4 = 11.
#[derive(Clone, Copy, Debug, Default, PartialEq, Eq)]
pub struct Element(pub [u32; 4]);

impl Element {
    pub const ZERO: Self = Self([0; 4]);
    pub const ONE: Self = Self([1, 0, 0, 0]);
}

impl From<u32> for Element {
    fn from(word: u32) -> Self {
        Self([word, 0, 0, 0])
    }
}

/// Why a call was refused.
#[derive(Clone, Copy, Debug, PartialEq, Eq)]
pub enum Refusal {
    Split = 1,
    NotPower = 2,
    TooMany = 3,
    Lengths = 4,
    Unreduced = 5,
    NoVertex = 7,
}

use Refusal::*;

impl Refusal {
    pub const ALL: [Self; 6] = [Split, NotPower, TooMany, Lengths, Unreduced, NoVertex];

    /// The number that the C call answers.
    pub fn number(self) -> u32 {
        self as u32
    }

    /// The refusal with this number.
    pub fn from_number(number: u32) -> Option<Self> {
        Self::ALL
            .into_iter()
            .find(|refusal| refusal.number() == number)
    }
}

impl fmt::Display for Refusal {
    fn fmt(&self, f: &mut fmt::Formatter) -> fmt::Result {
        let reason = match self {
            Split => "bytes that split a word or an element",
            NotPower => "a table's words that are no power of two",
            TooMany => "over 20 variables or coordinates",
            Lengths => "lengths that disagree",
            Unreduced => "a word that is not below the modulus",
            NoVertex => "no such row",
        };
        write!(f, "refused {}: {reason}", self.number())
    }
}

impl error::Error for Refusal {}

/// What `eval_next` gives.
#[derive(Clone, Copy, Debug, PartialEq, Eq)]
pub struct Next {
    pub carry: Element,
    pub done: Element,
    pub omega: Element,
}

/// eq of the point at a row: coordinate 0 goes with the row's highest bit.
pub fn equality_at_vertex(point: &[Element], vertex: u64) -> Result<Element, Refusal> {
    let mut out = [0; 16];
    accepted(raw::equality_at_vertex(
        &element_bytes(point),
        vertex,
        &mut out,
    ))?;
    Ok(elements(&out)[0])
}

/// carry, done and omega of two points.
pub fn eval_next(point: &[Element], row: &[Element]) -> Result<Next, Refusal> {
    let mut out = [0; 48];
    accepted(raw::eval_next(
        &element_bytes(point),
        &element_bytes(row),
        &mut out,
    ))?;
    let out = elements(&out);
    Ok(Next {
        carry: out[0],
        done: out[1],
        omega: out[2],
    })
}

/// The fold of a table's first variables at the point, on shifted weights.
pub fn compress_prefix_shifted(
    table: &[u32],
    point: &[Element],
    scale: Element,
) -> Result<Vec<Element>, Refusal> {
    fold(raw::compress_prefix_shifted, table, point, scale)
}

/// The same, of its last variables.
pub fn compress_suffix_shifted(
    table: &[u32],
    point: &[Element],
    scale: Element,
) -> Result<Vec<Element>, Refusal> {
    fold(raw::compress_suffix_shifted, table, point, scale)
}

type RawFold = fn(&[u8], &[u8], [u32; 4], &mut [u8], &mut [u8]) -> u32;

/// Work and out fit where the call is accepted. Where it is not, their lengths
/// do not matter, and are kept small.
fn fold(
    call: RawFold,
    table: &[u32],
    point: &[Element],
    scale: Element,
) -> Result<Vec<Element>, Refusal> {
    let k = point.len().min(MOST);
    let n = (table.len().max(1).ilog2() as usize).min(MOST);
    let mut work = vec![0; (16 << (k / 2)) + (16 << (k - k / 2))];
    let mut out = vec![0; 16 << n.saturating_sub(k)];
    accepted(call(
        &word_bytes(table),
        &element_bytes(point),
        scale.0,
        &mut work,
        &mut out,
    ))?;
    Ok(elements(&out))
}

fn accepted(answer: u32) -> Result<(), Refusal> {
    match answer {
        0 => Ok(()),
        _ => Err(Refusal::from_number(answer).expect("a number of include/ward.h")),
    }
}

/// Words as four bytes each, lowest first.
pub fn word_bytes(words: &[u32]) -> Vec<u8> {
    words.iter().flat_map(|word| word.to_le_bytes()).collect()
}

/// Elements as sixteen bytes each, c0 first.
pub fn element_bytes(elements: &[Element]) -> Vec<u8> {
    elements
        .iter()
        .flat_map(|element| word_bytes(&element.0))
        .collect()
}

/// The words of bytes; bytes that are no whole word at the end are left out.
pub fn words(bytes: &[u8]) -> Vec<u32> {
    let (words, _) = bytes.as_chunks();
    words.iter().map(|&word| u32::from_le_bytes(word)).collect()
}

/// The elements of bytes, in the same way.
pub fn elements(bytes: &[u8]) -> Vec<Element> {
    words(bytes)
        .as_chunks()
        .0
        .iter()
        .map(|&words| Element(words))
        .collect()
}
