//! Values of a table at a point, and fixing or summing a variable.

use p3_field::{Base, Element};
use p3_multilinear_util::poly::Poly;

use crate::bench::Bench;
use crate::input::{Input, MOST, SCALE, elements, scale};
use crate::side::Who::{self, C, Limit, Ours, Rust};
use crate::side::{Side, Words};
use crate::{limits, reference};

type Fix = fn([u32; 4], &mut [u32], &mut u64) -> u32;
type RustFix = fn(&mut Poly<Element>, Element);
type FixByHand = fn(&mut [u32]) -> u32;

struct Fixing {
    name: &'static str,
    ours: Fix,
    rust: RustFix,
    by_hand: &'static [(Who, FixByHand)],
}

const FIXING: [Fixing; 4] = [
    Fixing {
        name: "fix_prefix_var_mut",
        ours: host::fix_prefix_var_mut,
        rust: |table, r| table.fix_prefix_var_mut(r),
        by_hand: &[
            (C, |table| reference::fix_prefix(table, &SCALE)),
            (Limit, |table| limits::fix_prefix(table, &SCALE)),
        ],
    },
    Fixing {
        name: "fix_suffix_var_mut",
        ours: host::fix_suffix_var_mut,
        rust: |table, r| table.fix_suffix_var_mut(r),
        by_hand: &[(Limit, |table| limits::fix_suffix(table, &SCALE))],
    },
    Fixing {
        name: "fix_prefix_var_mut_monomial",
        ours: host::fix_prefix_var_mut_monomial,
        rust: |table, r| table.fix_prefix_var_mut_monomial(r),
        by_hand: &[(Limit, |table| limits::fix_monomial(table, &SCALE))],
    },
    Fixing {
        name: "sum_prefix_var_mut",
        ours: |_, table, count| host::sum_prefix_var_mut(table, count),
        rust: |table, _| table.sum_prefix_var_mut(),
        by_hand: &[(C, reference::sum_prefix), (Limit, limits::sum_prefix)],
    },
];

/// The most variables of a table whose value is computed by halves down to its entries.
const HALVES: usize = 8;

pub fn run(bench: &mut Bench, input: &Input) {
    for n in [HALVES, MOST] {
        let k = || format!("k = {n}");
        bench.case("Poly::eval_base", n, k(), || eval_base(input, n));
        bench.case("Poly::eval_ext", n, k(), || eval_ext(input, n));
    }
    let n = MOST;
    let k = || format!("k = {n}");
    bench.case("Poly::eval_next_base", n, k(), || eval_next_base(input, n));
    for fixing in FIXING {
        bench.case(fixing.name, n, String::new(), || {
            let mut sides = fix(input, n, fixing.ours, fixing.rust);
            let by_hand = fixing.by_hand.iter();
            sides.extend(by_hand.map(|&(who, fix)| fix_by_hand(who, input, n, fix)));
            sides
        });
    }
}

pub fn eval_base(input: &Input, n: usize) -> Vec<Side<'_>> {
    let (words, coordinates, point) = (input.words(n), input.coordinates(n), input.point(n));
    let mut sides = vec![
        Side::given(Rust, move || input.table(n).eval_base(&point)),
        Side::whole(Ours, |out| host::poly_eval_base(words, coordinates, out)),
    ];
    if HALVES < n {
        sides.push(Side::lent(C, 4, |out| {
            reference::eval_base(words, coordinates, out)
        }));
        sides.push(Side::lent(Limit, 4, |out| {
            limits::eval_base(words, coordinates, out)
        }));
    }
    sides
}

fn eval_ext(input: &Input, n: usize) -> Vec<Side<'_>> {
    let (words, coordinates, point) = (input.entries(n), input.coordinates(n), input.point(n));
    let table = Poly::new(elements(words));
    let mut sides = vec![
        Side::given(Rust, move || table.eval_ext::<Base>(&point)),
        Side::whole(Ours, |out| host::poly_eval_ext(words, coordinates, out)),
    ];
    if HALVES < n {
        sides.push(Side::lent(C, 4, |out| {
            reference::eval_ext(words, coordinates, out)
        }));
        sides.push(Side::lent(Limit, 4, |out| {
            limits::eval_ext(words, coordinates, out)
        }));
    }
    sides
}

fn eval_next_base(input: &Input, n: usize) -> Vec<Side<'_>> {
    let (words, coordinates, point) = (input.words(n), input.coordinates(n), input.point(n));
    vec![
        Side::given(Rust, move || input.table(n).eval_next_base(&point)),
        Side::whole(Ours, |out| {
            host::poly_eval_next_base(words, coordinates, out)
        }),
    ]
}

/// The table is put back before each run.
fn fix(input: &Input, n: usize, ours: Fix, rust: RustFix) -> Vec<Side<'_>> {
    let entries = input.entries(n);
    let whole = elements(entries);
    let (mut words, mut count) = (entries.to_vec(), 0);
    vec![
        Side::new(Rust, move |clock| {
            let mut table = Poly::new(whole.clone());
            clock.once(|| rust(&mut table, scale()));
            clock.leaves(|| table.words());
        }),
        Side::new(Ours, move |clock| {
            words.copy_from_slice(entries);
            assert_eq!(clock.once(|| ours(SCALE, &mut words, &mut count)), 0);
            clock.leaves(|| words[..4 * count as usize].to_vec());
        }),
    ]
}

fn fix_by_hand(who: Who, input: &Input, n: usize, fix: FixByHand) -> Side<'_> {
    let entries = input.entries(n);
    let mut words = entries.to_vec();
    Side::new(who, move |clock| {
        words.copy_from_slice(entries);
        assert_eq!(clock.once(|| fix(&mut words)), 0);
        clock.leaves(|| words[..entries.len() / 2].to_vec());
    })
}
