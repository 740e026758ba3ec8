//! The input of both sides, from a fixed seed.

use std::cell::LazyCell;
use std::hint::black_box;

use calls::{P, Random, element};
use p3_field::{Base, Element};
use p3_multilinear_util::point::Point;
use p3_multilinear_util::poly::{Poly, PolyView};

/// The most variables of a table.
pub const MOST: usize = 20;

/// The most columns of a session.
pub const MOST_COLUMNS: usize = 16;

/// The most points of a batch.
pub const MOST_POINTS: usize = 64;

pub const SCALE: [u32; 4] = [123456789, 987654321, 192837465, 564738291];
pub const GIVEN: [u32; 4] = [1618033988, 1414213562, 1732050807, 577215664];

/// The same for the Rust, which may not know the words when it is compiled.
pub fn scale() -> Element {
    Element::new(black_box(SCALE))
}

pub fn given() -> Element {
    Element::new(black_box(GIVEN))
}

pub struct Input {
    words: Vec<u32>,
    base: Vec<Base>,
    /// The coordinates of the points of a batch; the first point is that of
    /// every other call.
    coordinates: Vec<u32>,
    entries: LazyCell<Vec<u32>>,
    /// A table of the most variables with the most columns.
    wide: LazyCell<Vec<u32>>,
}

impl Input {
    pub fn new() -> Self {
        let words = below_p(1, 1 << MOST);
        let base = words.iter().map(|&word| Base::new(word)).collect();
        Self {
            words,
            base,
            coordinates: below_p(2, 4 * MOST * MOST_POINTS),
            entries: LazyCell::new(|| below_p(3, 4 << MOST)),
            wide: LazyCell::new(|| below_p(4, MOST_COLUMNS << MOST)),
        }
    }

    /// A table of 2^n base words.
    pub fn words(&self, n: usize) -> &[u32] {
        &self.words[..1 << n]
    }

    /// The same for the Rust.
    pub fn table(&self, n: usize) -> PolyView<'_, Base> {
        Poly::new(&self.base[..1 << n])
    }

    /// A table of 2^n elements.
    pub fn entries(&self, n: usize) -> &[u32] {
        &self.entries[..4 << n]
    }

    /// A table of 2^n base words in each of so many columns.
    pub fn wide(&self, n: usize, columns: usize) -> &[u32] {
        &self.wide[..columns << n]
    }

    /// k coordinates, or k of each of several points.
    pub fn coordinates(&self, k: usize) -> &[u32] {
        &self.coordinates[..4 * k]
    }

    pub fn point(&self, k: usize) -> Point<Element> {
        Point::new(elements(self.coordinates(k)))
    }
}

fn below_p(seed: u64, count: usize) -> Vec<u32> {
    let mut random = Random(seed);
    (0..count).map(|_| random.below(P)).collect()
}

pub fn elements(words: &[u32]) -> Vec<Element> {
    words.chunks_exact(4).map(element).collect()
}
