//! What the unchanged Rust files do with input that document 01 refuses, as
//! docs/DIFFERENCES.md lists it: values, split folds and fixing.

mod common;

use std::env;
use std::os::unix::process::ExitStatusExt;
use std::process::Command;

use common::{UNEQUAL, all, one, panics, point, run};
use p3_field::{Base, Element, PrimeCharacteristicRing};
use p3_multilinear_util::point::Point;
use p3_multilinear_util::poly::Poly;
use p3_multilinear_util::split_eq::SplitEq;

/// A debug build has debug assertions and checks overflow.
const DEBUG: bool = cfg!(debug_assertions);

const ABOVE: &str = "assertion failed: self.num_variables() <= poly.num_variables()";

/// 1, 4, 9, 16 and so on.
fn squares(n: usize) -> Vec<Base> {
    (1..=1 << n).map(|i| Base::new(i) * Base::new(i)).collect()
}

fn base(n: usize) -> Poly<Base> {
    Poly::new(squares(n))
}

fn elements(table: &Poly<Base>) -> Poly<Element> {
    Poly::new(table.iter().map(|&word| word.into()).collect())
}

type Split = SplitEq<Base, Element>;

/// Both ways to build the split tables.
const SPLITS: [fn(&Point<Element>, Element) -> Split; 2] = [Split::new_packed, Split::new_unpacked];

type Call = fn(&Split, &Poly<Base>) -> Vec<Element>;

const VALUES: [Call; 3] = [
    |split, table| vec![split.eval_base(table.as_view())],
    |split, table| vec![split.eval_ext(elements(table).as_view())],
    |split, table| vec![split.eval_next_base(table.as_view())],
];

const PREFIX: Call = |split, table| split.compress_prefix(table.as_view()).into_evals();
const SUFFIX: Call = |split, table| split.compress_suffix(table.as_view()).into_evals();
const PREFIX_SHIFTED: Call =
    |split, table| split.compress_prefix_shifted(table.as_view()).into_evals();
const SUFFIX_SHIFTED: Call =
    |split, table| split.compress_suffix_shifted(table.as_view()).into_evals();

/// `Poly::eval_base` and `eval_ext`, which must agree.
fn value(n: usize, z: &[u32]) -> Result<Element, String> {
    let (table, z) = (base(n), point(z));
    let got = run(|| table.eval_base(&z));
    assert_eq!(got, run(|| elements(&table).eval_ext::<Base>(&z)));
    got
}

#[test]
fn words_not_below_p_are_reduced() {
    const P: u32 = Base::MODULUS;
    let table = Poly::new([P, P + 1].map(Base::new).to_vec());
    assert_eq!(table.eval_base(&point(&[2])), one(2));
    let mut table = Poly::new(all(&[1, 4]));
    table.fix_prefix_var_mut(one(P));
    assert_eq!(table.as_slice(), all(&[1]));
}

#[test]
fn entries_not_a_power_of_two() {
    for entries in [0, 3, 6, 12] {
        let message = "Evaluation list length must be a power of two.";
        let words = vec![Base::new(1); entries];
        panics(message, || Poly::new(words.as_slice()));
        panics(message, || Poly::new(words));
        panics(message, || Poly::new(vec![one(1); entries]));
        for new in SPLITS {
            for k in 0..=2 {
                let split = new(&point(&[2, 3][..k]), one(5));
                let mut out = vec![one(7); entries];
                // The message is the stand-in's of log2_strict_usize.
                panics("not a power of two", || {
                    split.accumulate_into(&mut out, None)
                });
                assert_eq!(out, vec![one(7); entries]);
            }
        }
    }
}

/// The smallest of each kind, with their values.
#[test]
fn values_at_another_point() {
    let cases: [(usize, &[u32], Result<u32, &str>); 7] = [
        (1, &[], Ok(1)),
        (21, &[], Ok(1)),
        (2, &[2], Ok(7)),
        (3, &[2, 3], Ok(50)),
        (6, &[1, 0, 0, 0, 0], Ok(33 * 33)),
        (0, &[2], Err("index out of bounds")),
        (1, &[2, 3], Err("index out of bounds")),
    ];
    for (n, z, expected) in cases {
        let expected = if DEBUG { Err(UNEQUAL) } else { expected };
        match (value(n, z), expected) {
            (Ok(got), Ok(expected)) => assert_eq!(got, one(expected)),
            (Err(got), Err(expected)) => assert!(got.contains(expected), "{got}"),
            (got, expected) => panic!("{got:?}, not {expected:?}"),
        }
    }
}

/// What of a table too large is evaluated, up to 8 coordinates: the first entries
/// up to 4, then the first 16 of each of 2^(k-4) parts.
#[test]
fn values_at_any_other_point() {
    let coordinates = [2, 3, 5, 7, 11, 13, 17, 19, 23, 29, 31];
    for k in 0..=8 {
        let z = &coordinates[..k];
        for n in (0..=11).filter(|&n| n != k) {
            let got = value(n, z);
            if DEBUG {
                assert!(got.unwrap_err().contains(UNEQUAL));
            } else if n < k {
                assert!(got.unwrap_err().contains("index out of bounds"));
            } else {
                let parts = 1 << k.saturating_sub(4);
                let kept = squares(n)
                    .chunks((1 << n) / parts)
                    .flat_map(|part| &part[..(1 << k) / parts])
                    .copied()
                    .collect();
                assert_eq!(got.unwrap(), Poly::<Base>::new(kept).eval_base(&point(z)));
            }
        }
    }
    for k in 9..=11 {
        for n in (0..=11).filter(|&n| n != k) {
            let got = value(n, &coordinates[..k]);
            assert!(got.unwrap_err().contains(UNEQUAL));
        }
    }
}

/// Split points, and all points from 9 coordinates on, assert in both builds.
#[test]
fn split_values_at_another_point() {
    for (n, k) in [(0, 1), (1, 0), (1, 2), (2, 1), (20, 21), (21, 20)] {
        let (table, z) = (base(n), point(&[1; 21][..k]));
        panics(UNEQUAL, || table.eval_next_base(&z));
        if k > 8 {
            panics(UNEQUAL, || table.eval_base(&z));
            panics(UNEQUAL, || elements(&table).eval_ext::<Base>(&z));
        }
        for new in SPLITS {
            let split = new(&z, one(5));
            for value in VALUES {
                panics(UNEQUAL, || value(&split, &table));
            }
        }
    }
}

#[test]
fn folds_at_a_longer_point() {
    let constant = (1..=5).map(|k| (0, k));
    for (n, k) in constant.chain([(1, 2), (20, 21)]) {
        let table = base(n);
        for new in SPLITS {
            let split = new(&point(&[1; 21][..k]), one(5));
            for fold in [PREFIX, PREFIX_SHIFTED, SUFFIX_SHIFTED] {
                panics(ABOVE, || fold(&split, &table));
            }
            // In a release build 2^(64 + n - k) elements.
            let message = match DEBUG {
                true => "attempt to subtract with overflow",
                false => "capacity overflow",
            };
            panics(message, || SUFFIX(&split, &table));
        }
    }
}

/// From 6 coordinates too many on a release build asks for memory that there
/// cannot be, and the process is aborted. So it is another process.
#[test]
fn suffix_folds_at_a_much_longer_point() {
    const COORDINATES: &str = "SUFFIX_FOLD_COORDINATES";
    const WAY: &str = "SUFFIX_FOLD_WAY";
    let given = |name| env::var(name).ok()?.parse::<usize>().ok();
    if let (Some(k), Some(way)) = (given(COORDINATES), given(WAY)) {
        SUFFIX(&SPLITS[way](&point(&vec![2; k]), one(5)), &base(0));
        return;
    }
    for (k, way) in (6..=20).flat_map(|k| [(k, 0), (k, 1)]) {
        let run = Command::new(env::current_exe().unwrap())
            .args(["--exact", "suffix_folds_at_a_much_longer_point"])
            .arg("--nocapture")
            .env(COORDINATES, k.to_string())
            .env(WAY, way.to_string())
            .output()
            .unwrap();
        let said = String::from_utf8(run.stderr).unwrap();
        if DEBUG {
            assert!(said.contains("attempt to subtract with overflow"), "{said}");
            assert_eq!(run.status.signal(), None);
        } else {
            let bytes = 16u64 << (64 - k);
            let message = format!("memory allocation of {bytes} bytes failed");
            assert!(said.contains(&message), "{said}");
            // SIGABRT.
            assert_eq!(run.status.signal(), Some(6));
        }
    }
}

#[test]
fn accumulating_into_another_out() {
    for (k, entries) in [(0, 2), (1, 1), (2, 2), (1, 4), (20, 1 << 21), (21, 1)] {
        for new in SPLITS {
            let split = new(&point(&[1; 21][..k]), one(5));
            for scale in [None, Some(one(2))] {
                let mut out = vec![one(7); entries];
                panics(UNEQUAL, || split.accumulate_into(&mut out, scale));
                assert!(out.iter().all(|&entry| entry == one(7)));
            }
        }
    }
}

#[test]
fn values_of_21_variables() {
    let (table, z) = (base(21), point(&[1; 21]));
    // The last entry, (2^21)^2.
    let last = *table.as_slice().last().unwrap();
    assert_eq!(table.eval_base(&z), last.into());
    assert_eq!(elements(&table).eval_ext::<Base>(&z), last.into());
    assert_eq!(table.eval_next_base(&z), last.into());
    for new in SPLITS {
        let split = new(&z, one(5));
        assert_eq!(split.last_scalar(), one(5));
        for value in VALUES {
            assert_eq!(value(&split, &table), [one(5) * last]);
        }
        let mut out = vec![one(7); 1 << 21];
        split.accumulate_into(&mut out, Some(one(2)));
        assert_eq!(out.pop(), Some(one(17)));
        assert!(out.iter().all(|&entry| entry == one(7)));
    }
}

#[test]
fn folds_of_21_variables() {
    let table = base(21);
    for new in SPLITS {
        // No coordinates: the table times the scale, and zeros.
        let split = new(&point(&[]), one(5));
        let whole: Vec<_> = table.iter().map(|&entry| one(5) * entry).collect();
        let zeros = vec![Element::ZERO; 1 << 21];
        assert!(PREFIX(&split, &table) == whole);
        assert!(SUFFIX(&split, &table) == whole);
        assert!(PREFIX_SHIFTED(&split, &table) == zeros);
        assert!(SUFFIX_SHIFTED(&split, &table) == zeros);
        // All of them, each 0: the first entry, and the one after it.
        let split = new(&point(&[0; 21]), one(5));
        for (fold, number) in [
            (PREFIX, 5),
            (SUFFIX, 5),
            (PREFIX_SHIFTED, 20),
            (SUFFIX_SHIFTED, 20),
        ] {
            assert_eq!(fold(&split, &table), [one(number)]);
        }
    }
}

/// Where the first half of the point has 59 coordinates or more, there is no
/// table of it, nor is the table looked at that the point is for.
#[test]
fn many_coordinates() {
    for (k, message) in [
        (118, "capacity overflow"),
        (127, "capacity overflow"),
        (128, "2^n overflows usize."),
    ] {
        let z = point(&vec![0; k]);
        for new in SPLITS {
            panics(message, || new(&z, one(5)).last_scalar());
        }
        panics(message, || base(0).eval_base(&z));
        panics(message, || elements(&base(0)).eval_ext::<Base>(&z));
        panics(message, || base(0).eval_next_base(&z));
    }
}

#[test]
fn fixing() {
    let fixes: [(fn(&mut Poly<Element>), u32); 3] = [
        (|table| table.fix_prefix_var_mut(one(1)), 1 << 20),
        (|table| table.fix_suffix_var_mut(one(1)), 1),
        (|table| table.fix_prefix_var_mut_monomial(one(0)), 0),
    ];
    let whole = elements(&base(21));
    for (fix, row) in fixes {
        let mut constant = Poly::new(all(&[7]));
        panics("no free variables", || fix(&mut constant));
        assert_eq!(constant.as_slice(), all(&[7]));

        let mut table = whole.clone();
        fix(&mut table);
        assert_eq!(table.num_evals(), 1 << 20);
        assert_eq!(table.as_slice()[0], one(row + 1) * one(row + 1));
    }
    let mut table = whole;
    table.sum_prefix_var_mut();
    assert_eq!(table.num_evals(), 1 << 20);
    let half = one((1 << 20) + 1);
    assert_eq!(table.as_slice()[0], one(1) + half * half);
}
