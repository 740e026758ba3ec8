//! One call of the fold session, and what it must answer and leave.

use calls::Operation::{
    CompressPrefix, CompressPrefixCyclic, CompressPrefixShifted, CompressSuffix,
    CompressSuffixCyclic, CompressSuffixShifted, LastScalar, NewFromPoint,
};
use calls::{Call, MOST, Operation, Outcome, element, entries, rows, splits, unreduced};
use p3_field::{Base, Element, PrimeCharacteristicRing};

use host::{COORDINATES, HEAD};

use Kind::{Close, Feed, Open, Read};

/// The places among a session's words, and their count: the head, and the coordinates.
pub const N: usize = 0;
pub const K: usize = 1;
pub const COLUMNS: usize = 2;
pub const SIDE: usize = 3;
pub const WEIGHT: usize = 4;
pub const TAKEN: usize = 5;
pub const CLOSED: usize = 6;
pub const SCALE: usize = 7;
pub const POINT: usize = HEAD;
pub const WORDS: usize = HEAD + COORDINATES;

/// The host library's own answer where numbers are no session's.
pub const NO_SESSION: u32 = 255;

/// The weights: 0 plain, 1 shifted, 2 next, 3 cyclic.
pub const WEIGHTS: u32 = 4;

/// The most columns of a prefix session.
pub const MOST_COLUMNS: u64 = 16;

#[derive(Clone, Copy, Debug, PartialEq, Eq, PartialOrd, Ord)]
pub enum Kind {
    Open,
    Feed,
    Close,
    Read,
}

#[derive(Clone)]
pub struct Step {
    pub kind: Kind,
    /// Open's arguments.
    pub n: u64,
    pub columns: u64,
    pub side: u32,
    pub weight: u32,
    pub scale: Vec<u32>,
    pub point: Vec<u32>,
    /// Feed's.
    pub piece: Vec<u32>,
    /// Read's.
    pub place: u64,
    /// The session's words, out and the element that a read gives, before the call.
    pub words: Vec<u32>,
    pub out: Vec<u32>,
    pub element: Vec<u32>,
}

impl Step {
    /// The call through C.
    pub fn ours(&self, words: &mut [u32], out: &mut [u32], element: &mut [u32]) -> u32 {
        let (n, columns) = (self.n, self.columns);
        let (side, weight) = (self.side, self.weight);
        let scale = self.scale[..].try_into().unwrap();
        let (head, point) = words.split_at_mut(HEAD);
        let (head, point) = (head.try_into().unwrap(), point.try_into().unwrap());
        match self.kind {
            Open => {
                let given = &self.point;
                host::session_open(given, scale, n, columns, side, weight, out, head, point)
            }
            Feed => host::session_feed(&self.piece, out, head, point),
            Close => host::session_close(out, head, point),
            Read => {
                let element = element.try_into().unwrap();
                host::session_read(self.place, out, head, point, element)
            }
        }
    }

    /// Tests in the order of document 01 and of requests (a) and (e), each with the
    /// refusal where it holds.
    pub fn refusals(&self) -> Vec<(bool, u32)> {
        if self.is_no_session() {
            return vec![(true, NO_SESSION)];
        }
        if self.kind == Open {
            return self.of_open();
        }
        let (out, piece) = (&self.out[..], &self.piece[..]);
        let [n, k, columns, _, _, taken, closed] = self.numbers();
        let (table, places) = (wide(n, columns), wide(n.saturating_sub(k), columns));
        let misfits = splits([out]) || places != Some(entries(out));
        let passes = |more| table.is_some_and(|words| taken + more > words);
        let missing = table.is_none_or(|words| taken < words);
        if self.kind == Read {
            let beyond = places.is_some_and(|places| self.place >= places);
            return vec![
                (self.broken(), 11),
                (misfits, 4),
                (unreduced([out]), 5),
                (beyond, 14),
            ];
        }
        let (input, last) = match self.kind {
            Feed => ([out, piece], (passes(piece.len() as u64), 8)),
            _ => ([out, &[]], (missing, 9)),
        };
        vec![
            (self.broken(), 11),
            (closed == 1, 10),
            (misfits, 4),
            (unreduced(input), 5),
            last,
        ]
    }

    fn of_open(&self) -> Vec<(bool, u32)> {
        let (n, k) = (self.n, entries(&self.point));
        let places = n.checked_sub(k).and_then(|left| wide(left, self.columns));
        vec![
            (splits([&self.point, &self.out]), 1),
            (n > MOST || k > MOST, 3),
            (miscounts(self.columns, self.side), 15),
            (places != Some(entries(&self.out)), 4),
            (unreduced([&self.point, &self.scale]), 5),
        ]
    }

    fn is_no_session(&self) -> bool {
        match self.kind {
            Open => self.side > 1 || self.weight >= WEIGHTS,
            _ => self.words[SIDE] > 1 || self.words[WEIGHT] >= WEIGHTS || self.words[CLOSED] > 1,
        }
    }

    fn broken(&self) -> bool {
        let [n, k, columns, side, _, taken, closed] = self.numbers();
        let disagrees = |words| taken > words || closed == 1 && taken < words;
        let unused = self.words.iter().skip(POINT + 4 * k as usize);
        n > MOST
            || k > n
            || miscounts(columns, side as u32)
            || wide(n, columns).is_some_and(disagrees)
            || unreduced([&self.words[SCALE..]])
            || unused.into_iter().any(|&word| word != 0)
    }

    fn numbers(&self) -> [u64; 7] {
        [N, K, COLUMNS, SIDE, WEIGHT, TAKEN, CLOSED].map(|at| self.words[at] as u64)
    }

    /// The words of the table of open's arguments, where those are a session's.
    pub fn table_words(&self) -> usize {
        wide(self.n, self.columns).unwrap() as usize
    }

    /// The session's words, out and the element after this accepted call.
    pub fn accepted(&self) -> [Vec<u32>; 3] {
        let mut words = self.words.clone();
        let mut element = self.element.clone();
        let [words, out] = match self.kind {
            Open => {
                let k = entries(&self.point) as u32;
                let columns = self.columns as u32;
                words = vec![self.n as u32, k, columns, self.side, self.weight, 0, 0];
                words.extend([&self.scale[..], &self.point].concat());
                words.resize(WORDS, 0);
                [words, vec![0; self.out.len()]]
            }
            Feed => {
                words[TAKEN] += self.piece.len() as u32;
                [words, self.fed()]
            }
            Close => {
                words[CLOSED] = 1;
                [words, self.out.clone()]
            }
            Read => {
                element = self.out[4 * self.place as usize..][..4].to_vec();
                [words, self.out.clone()]
            }
        };
        [words, out, element]
    }

    /// Out with scale·weight·word added to the column of the place of each word of
    /// the piece.
    fn fed(&self) -> Vec<u32> {
        let numbers = self.numbers().map(|number| number as usize);
        let [n, k, columns, side, weight, taken, _] = numbers;
        let (rows, places) = (1 << k, 1 << (n - k));
        let (point, scale) = (&self.words[POINT..][..4 * k], &self.words[SCALE..POINT]);
        let eq = elements(&rust(NewFromPoint, [point, scale, &[]], k, 0)[0]);
        let mut weights = eq.clone();
        if weight > 0 {
            weights.rotate_right(1);
        }
        if weight == 1 || weight == 2 {
            weights[0] = Element::ZERO;
        }
        if weight == 2 {
            weights[rows - 1] += eq[rows - 1];
        }
        let mut out = elements(&self.out);
        for (t, &word) in (taken..).zip(&self.piece) {
            let (entry, column) = (t / columns, t % columns);
            let (row, place) = match side {
                0 => (entry / places, entry % places),
                _ => (entry % rows, entry / rows),
            };
            out[place * columns + column] += weights[row] * Base::new(word);
        }
        out.into_iter().flat_map(Element::words).collect()
    }

    /// Out of a whole table that was fed after this open, by each of the Rust's
    /// arms: that of each column.
    pub fn folded(&self, table: &[u32]) -> Vec<Outcome<1>> {
        let columns = self.columns as usize;
        let outs: Vec<_> = (0..columns)
            .map(|column| self.folded_column(table, column))
            .collect();
        let woven = |arm: usize| {
            let mut woven = vec![0; self.out.len()];
            for (i, element) in woven.chunks_exact_mut(4).enumerate() {
                let [out] = &outs[i % columns][arm].lent;
                element.copy_from_slice(&out[i / columns * 4..][..4]);
            }
            Outcome {
                answer: 0,
                lent: [woven],
            }
        };
        (0..outs[0].len()).map(woven).collect()
    }

    /// The element of such an out that a read of this place gives.
    pub fn folded_place(&self, table: &[u32]) -> Vec<Outcome<1>> {
        let (columns, place) = (self.columns as usize, self.place as usize);
        let mut folds = self.folded_column(table, place % columns);
        for fold in &mut folds {
            let [out] = &mut fold.lent;
            *out = out[place / columns * 4..][..4].to_vec();
        }
        folds
    }

    /// The Rust's folds of one column, whose word w is word w·c + j of the table.
    /// It has no next fold and no cyclic one: those are the shifted one, and the
    /// last row or row 0.
    fn folded_column(&self, table: &[u32], column: usize) -> Vec<Outcome<1>> {
        let words = table[column..].iter().step_by(self.columns as usize);
        let table = &words.copied().collect::<Vec<_>>()[..];
        let (n, k) = (self.n as usize, self.point.len() / 4);
        let fold = match (self.side, self.weight) {
            (0, 0) => CompressPrefix,
            (0, 3) => CompressPrefixCyclic,
            (0, _) => CompressPrefixShifted,
            (_, 0) => CompressSuffix,
            (_, 3) => CompressSuffixCyclic,
            _ => CompressSuffixShifted,
        };
        let folds = rust(fold, [table, &self.point, &self.scale], n, k);
        let scalars = rust(LastScalar, [&self.point, &self.scale, &[]], k, 0);
        let both = folds.into_iter().zip(scalars);
        both.map(|(mut out, scalar)| {
            let (rows, places) = (1 << k, 1 << (n - k));
            for (i, place) in out.chunks_exact_mut(4).enumerate() {
                let word = match self.side {
                    0 => table[(rows - 1) * places + i],
                    _ => table[i * rows + rows - 1],
                };
                if self.weight == 2 {
                    let sum = element(place) + element(&scalar) * Base::new(word);
                    place.copy_from_slice(&sum.words());
                }
            }
            Outcome {
                answer: 0,
                lent: [out],
            }
        })
        .collect()
    }
}

/// The words of a table of n variables with so many columns, or the elements of
/// out where n remain; where a u64 can hold it.
pub fn wide(n: u64, columns: u64) -> Option<u64> {
    rows(n)?.checked_mul(columns)
}

/// The most columns on a side.
pub fn most_columns(side: u32) -> u64 {
    match side {
        0 => MOST_COLUMNS,
        _ => 1,
    }
}

/// No session on this side has so many columns.
fn miscounts(columns: u64, side: u32) -> bool {
    columns < 1 || columns > most_columns(side)
}

/// Out of an accepted call of another operation, by each of the Rust's arms.
fn rust(operation: Operation, read: [&[u32]; 3], n: usize, m: usize) -> Vec<Vec<u32>> {
    let [_, _, _, work, out] = operation.lengths(n, m);
    let [a, b, c] = read.map(<[u32]>::to_vec);
    let given = Call {
        operation,
        slices: [a, b, c, vec![0; work], vec![0; out]],
        number: 0,
    };
    let outcomes = given.expected().into_iter();
    outcomes.map(|outcome| outcome.lent[1].clone()).collect()
}

fn elements(words: &[u32]) -> Vec<Element> {
    words.chunks_exact(4).map(element).collect()
}
