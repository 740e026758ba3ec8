//! The word calls of `host`, by operation.

use calls::Operation::*;
use calls::{Call, Operation};

/// What a call through C takes: the slices, the number, and a count that it leaves.
struct Arguments<'a> {
    a: &'a [u32],
    b: &'a [u32],
    c: &'a [u32],
    number: u64,
    work: &'a mut [u32],
    out: &'a mut [u32],
    count: &'a mut u64,
}

macro_rules! through_c {
    ($($number:literal: $operation:ident = $name:ident($($argument:ident),*);)*) => {
        fn through_c(operation: Operation, with: Arguments) -> u32 {
            match operation {
                // A slice of one length passes as an array.
                $($operation => host::$name($(with.$argument.try_into().unwrap()),*),)*
            }
        }
    };
}

calls::operations!(through_c);

/// The call through C, which is lent work and out.
pub fn ours(given: &Call, work: &mut [u32], out: &mut [u32]) -> u32 {
    let [a, b, c, ..] = given.slices.each_ref().map(Vec::as_slice);
    let mut count = out.first().map_or(0, |&word| word.into());
    let with = Arguments {
        a,
        b,
        c,
        number: given.number,
        work,
        out,
        count: &mut count,
    };
    let answer = through_c(given.operation, with);
    if given.operation.fixes() {
        out[0] = count.try_into().unwrap();
    }
    answer
}
