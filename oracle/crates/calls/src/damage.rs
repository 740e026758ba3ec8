//! Changes of a call that fits. Most make it refused; two together make it
//! refused for two reasons.

use crate::Operation::*;
use crate::{Call, Operation, Random, Slice, UNREDUCED, before};
use Damage::*;
use Place::*;

#[derive(Clone, Copy)]
pub enum Place {
    First,
    Any,
    Last,
}

#[derive(Clone, Copy)]
pub enum Damage {
    /// A slice gets this length in words.
    Length(Slice, usize),
    /// A word of a slice becomes this.
    Word(Slice, Place, u32),
    /// The number becomes this.
    Number(u64),
}

impl Damage {
    /// The changes of a call that fits n and m.
    pub fn all(operation: Operation, n: usize, m: usize) -> Vec<Self> {
        let mut all: Vec<_> = numbers(operation, n).into_iter().map(Number).collect();
        let named = operation.slices().map(|name| !name.is_empty());
        let fits = operation.lengths(n, m);
        for slice in Slice::ALL
            .into_iter()
            .filter(|&slice| named[slice as usize])
        {
            let lengths = lengths(fits[slice as usize]).into_iter();
            all.extend(lengths.map(|words| Length(slice, words)));
            for word in UNREDUCED {
                all.extend([First, Any, Last].map(|place| Word(slice, place, word)));
            }
        }
        all
    }
}

/// Lengths in words around the one that fits, at the limits, and where words
/// are taken for elements or the variables are one off.
fn lengths(fits: usize) -> Vec<usize> {
    let mut lengths: Vec<_> = (fits.saturating_sub(4)..=fits + 4).collect();
    for elements in [0, 20, 21, 64, 65] {
        lengths.extend([4 * elements, 4 * elements + 1]);
    }
    lengths.extend([fits / 4, fits / 2, 2 * fits]);
    lengths.sort();
    lengths.dedup();
    lengths.retain(|&words| words != fits);
    lengths
}

/// Numbers at the limits and past them, some with low bits that would fit.
fn numbers(operation: Operation, n: usize) -> Vec<u64> {
    let mut numbers = match operation {
        EqualityAtVertex => {
            let rows = 1 << n;
            vec![0, rows - 1, rows, rows + 1, 2 * rows]
        }
        EvalSelect => return UNREDUCED.map(u64::from).to_vec(),
        EvalEqBatch | EvalEqBatchAdd => {
            let n = n as u64;
            let other = vec![n + 1, n.saturating_sub(1), n + 64, n + (1 << 32)];
            [other, vec![20, 21, 22, 64]].concat()
        }
        _ => return vec![],
    };
    numbers.extend([1 << 32, 1 << 62, 1 << 63, u64::MAX]);
    numbers
}

impl Call {
    pub fn damage(&mut self, damage: Damage, random: &mut Random) {
        match damage {
            Length(slice, length) => {
                let more = length.saturating_sub(self.slice(slice).len());
                let words = before(self.operation, slice, more, random);
                let slice = self.slice(slice);
                slice.truncate(length);
                slice.extend(words);
            }
            Word(slice, place, word) => {
                let slice = self.slice(slice);
                let count = slice.len();
                let at = match place {
                    First => 0,
                    Any => random.below(count as u32) as usize,
                    Last => count.saturating_sub(1),
                };
                if at < count {
                    slice[at] = word;
                }
            }
            Number(number) => self.number = number,
        }
    }
}
