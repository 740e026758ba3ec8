//! The ward's folds on bytes, beside those on words.

use ward::{raw, word_bytes};

use crate::bench::Bench;
use crate::folds::{PREFIX_SHIFTED, SUFFIX_SHIFTED, our_fold, rust_fold, work};
use crate::input::{Input, MOST, SCALE};
use crate::side::Side;
use crate::side::Who::{Ours, Words};

type Fold = fn(&[u8], &[u8], [u32; 4], &mut [u8], &mut [u8]) -> u32;

pub fn run(bench: &mut Bench, input: &Input) {
    let n = MOST;
    let calls: [(&str, Fold, _); 2] = [
        (
            "ward_compress_prefix_shifted",
            raw::compress_prefix_shifted,
            PREFIX_SHIFTED,
        ),
        (
            "ward_compress_suffix_shifted",
            raw::compress_suffix_shifted,
            SUFFIX_SHIFTED,
        ),
    ];
    for (name, fold, (_, by_words, rust)) in calls {
        for k in [1, 10, 20] {
            bench.case(name, n, format!("k = {k}"), || {
                let mut sides = rust_fold(input, n, k, rust);
                sides.push(in_bytes(input, n, k, fold));
                sides.push(our_fold(Words, input, n, k, by_words));
                sides
            });
        }
    }
}

fn in_bytes(input: &Input, n: usize, k: usize, fold: Fold) -> Side<'_> {
    let table = word_bytes(input.words(n));
    let point = word_bytes(input.coordinates(k));
    let mut work = word_bytes(&work(k));
    let mut out = vec![0; 16 << (n - k)];
    Side::new(Ours, move |clock| {
        let answer = clock.each(|| fold(&table, &point, SCALE, &mut work, &mut out));
        assert_eq!(answer, 0);
        clock.leaves(|| ward::words(&out));
    })
}
