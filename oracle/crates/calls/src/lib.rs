//! Calls of the operations on points and tables: input that fits, damage to it,
//! and what a call must answer and leave, by document 01 and by the unchanged
//! Rust crate.

mod damage;
mod expected;
mod operation;
mod random;
mod refusals;
mod rust;

use p3_field::{Base, Element};

pub use damage::{Damage, Place};
pub use expected::{Outcome, expect};
pub use operation::{Operation, Slice};
pub use random::{LIMITS, Random, UNREDUCED};
pub use refusals::{MOST, Tests, entries, rows, splits, unreduced};

use Operation::*;

pub const P: u32 = Base::MODULUS;

#[derive(Clone)]
pub struct Call {
    pub operation: Operation,
    /// The slices before the call, empty where there is none.
    pub slices: [Vec<u32>; 5],
    /// The vertex, var or n, 0 where there is none.
    pub number: u64,
}

impl Call {
    /// Random input with these counts; accepted where they are within limits.
    pub fn fitting(operation: Operation, n: usize, m: usize, random: &mut Random) -> Self {
        let lengths = operation.lengths(n, m);
        Self {
            operation,
            slices: Slice::ALL
                .map(|slice| before(operation, slice, lengths[slice as usize], random)),
            number: match operation {
                EqualityAtVertex => random.below(1 << n) as u64,
                EvalSelect => random.word() as u64,
                EvalEqBatch | EvalEqBatchAdd => n as u64,
                _ => 0,
            },
        }
    }

    pub fn slice(&mut self, slice: Slice) -> &mut Vec<u32> {
        &mut self.slices[slice as usize]
    }

    /// The elements that are read, a base word as one of them. Out is left out.
    pub fn places(&self) -> usize {
        let [a, b, c, work, _] = self.slices.each_ref().map(Vec::len);
        let table = match self.operation.fixes() {
            true => work / 4,
            false => 0,
        };
        a / width(self.operation, Slice::A) + b / 4 + c / 4 + table
    }

    /// Puts an element into each of those places; a base word takes its first word.
    pub fn fill(&mut self, elements: &[[u32; 4]]) {
        let mut elements = elements.iter();
        for slice in [Slice::A, Slice::B, Slice::C, Slice::Work] {
            let width = width(self.operation, slice);
            if self.operation.reads(slice) {
                for place in self.slice(slice).chunks_exact_mut(width) {
                    place.copy_from_slice(&elements.next().unwrap()[..width]);
                }
            }
        }
    }

    /// Puts the largest word in every place of the table, or of all that is read.
    pub fn enlarge(&mut self, all: bool) {
        for slice in Slice::ALL {
            let table = self.operation.slices()[slice as usize] == "table";
            if self.operation.reads(slice) && (table || all) {
                self.slice(slice).fill(P - 1);
            }
        }
    }

    /// Puts this element in place of each scale, given scale or r.
    pub fn multiply_by(&mut self, element: [u32; 4]) {
        for (slice, name) in self.slices.iter_mut().zip(self.operation.slices()) {
            if ["scale", "given", "r"].contains(&name) {
                slice.copy_from_slice(&element);
            }
        }
    }
}

/// Words that may stand in a slice before a call that is accepted.
fn before(operation: Operation, slice: Slice, count: usize, random: &mut Random) -> Vec<u32> {
    match operation.reads(slice) {
        false => random.stale(count),
        true if width(operation, slice) == 1 => random.words(count),
        true => random.elements(count),
    }
}

/// The words of a place in a slice that is read.
fn width(operation: Operation, slice: Slice) -> usize {
    match slice == Slice::A && operation.base_table() {
        true => 1,
        false => 4,
    }
}

/// The element of four words.
pub fn element(words: &[u32]) -> Element {
    Element::new(words.try_into().unwrap())
}
