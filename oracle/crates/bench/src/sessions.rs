//! The fold session in pieces beside the fold in one call, and what one feed and
//! one read cost.

use host::{COORDINATES, HEAD};

use crate::bench::Bench;
use crate::folds::{Fold, PREFIX, PREFIX_SHIFTED, SUFFIX, SUFFIX_SHIFTED, our_fold};
use crate::input::{Input, MOST, SCALE};
use crate::side::Side;
use crate::side::Who::{self, C, Limit, Ours};
use crate::{limits, reference};

/// The words of a session: the head, and the coordinates.
type Words = ([u32; HEAD], [u32; COORDINATES]);

/// One feed, and the variables and coordinates of its session.
pub const FEED: &str = "session, one feed";
pub const FED: [(usize, usize); 3] = [(MOST, 20), (MOST, 10), (MOST, 0)];

/// One read of a place in such a session.
pub const READ: &str = "session, one read";

/// The coordinates of a session that is fed whole, and the words of its pieces.
pub const FOLDED: [usize; 2] = [10, MOST];
pub const PIECES: [usize; 3] = [16, 1024, 1 << MOST];

/// The name, side and weight of a session, and the fold in one call.
const SESSIONS: [(&str, u32, u32, Option<Fold>); 6] = [
    ("session, prefix, plain", 0, 0, Some(PREFIX.1)),
    ("session, prefix, shifted", 0, 1, Some(PREFIX_SHIFTED.1)),
    ("session, prefix, next", 0, 2, None),
    ("session, suffix, plain", 1, 0, Some(SUFFIX.1)),
    ("session, suffix, shifted", 1, 1, Some(SUFFIX_SHIFTED.1)),
    ("session, suffix, next", 1, 2, None),
];

pub fn run(bench: &mut Bench, input: &Input) {
    let n = MOST;
    for (name, side, weight, fold) in SESSIONS {
        for k in FOLDED {
            // A next fold in one call is there for all variables only.
            let fold = fold.or((k == n).then_some(next_value));
            for piece in PIECES {
                bench.case(name, n, in_pieces(k, piece), || {
                    let whole = Session::new(input, n, k);
                    whole.sides(side, weight, piece, fold)
                });
            }
        }
    }
    for (n, k) in FED {
        for count in [0, 16] {
            bench.case(FEED, n, one_feed(k, count), || {
                vec![Session::new(input, n, k).feed(count)]
            });
        }
    }
    for (n, k) in FED {
        bench.case(READ, n, one_read(k), || {
            vec![Session::new(input, n, k).read()]
        });
    }
    // Of a feed without words the test of out is what takes time.
    let k = 2;
    bench.case("test of 2^20 words", n, String::new(), || {
        let count = 4 << (n - k);
        vec![
            Session::new(input, n, k).feed(0),
            check(C, count, reference::unreduced),
            check(Limit, count, limits::unreduced),
        ]
    });
}

/// The next value at a point of all variables.
fn next_value(
    table: &[u32],
    point: &[u32],
    scale: [u32; 4],
    work: &mut [u32],
    out: &mut [u32],
) -> u32 {
    host::split_eval_next_base(table, point, scale, work, out.try_into().unwrap())
}

pub fn in_pieces(k: usize, piece: usize) -> String {
    format!("k = {k}, {}", pieces(piece))
}

pub fn one_feed(k: usize, count: usize) -> String {
    format!("k = {k}, {count} words")
}

pub fn one_read(k: usize) -> String {
    format!("k = {k}")
}

fn pieces(words: usize) -> String {
    match words {
        16 => "pieces of 16".into(),
        1024 => "pieces of 1,024".into(),
        _ => "whole".into(),
    }
}

pub struct Session<'a> {
    input: &'a Input,
    n: usize,
    k: usize,
    columns: usize,
}

impl<'a> Session<'a> {
    /// Of one column.
    pub fn new(input: &'a Input, n: usize, k: usize) -> Self {
        Self {
            input,
            n,
            k,
            columns: 1,
        }
    }

    /// The same of so many columns.
    pub fn of(self, columns: usize) -> Self {
        Self { columns, ..self }
    }

    fn sides(self, side: u32, weight: u32, piece: usize, fold: Option<Fold>) -> Vec<Side<'a>> {
        let Self { input, n, k, .. } = self;
        let fold = fold.map(|fold| our_fold(Who::Fold, input, n, k, fold));
        let mut sides = vec![self.fed(Ours, side, weight, piece)];
        sides.extend(fold);
        sides
    }

    /// The words of out.
    pub fn out_words(&self) -> usize {
        (4 * self.columns) << (self.n - self.k)
    }

    fn open(&self, side: u32, weight: u32, out: &mut [u32]) -> Words {
        let (mut head, mut kept) = ([0; HEAD], [0; COORDINATES]);
        let (n, columns) = (self.n as u64, self.columns as u64);
        let answer = host::session_open(
            self.input.coordinates(self.k),
            SCALE,
            n,
            columns,
            side,
            weight,
            out,
            &mut head,
            &mut kept,
        );
        assert_eq!(answer, 0);
        (head, kept)
    }

    /// From open to close, the table in these pieces; the answer of close.
    pub fn pass<'b>(
        &self,
        side: u32,
        weight: u32,
        pieces: impl Iterator<Item = &'b [u32]>,
        out: &mut [u32],
    ) -> u32 {
        let (mut head, mut kept) = self.open(side, weight, out);
        for piece in pieces {
            assert_eq!(host::session_feed(piece, out, &mut head, &mut kept), 0);
        }
        host::session_close(out, &mut head, &mut kept)
    }

    /// The table in pieces of this many words.
    pub fn fed(self, who: Who, side: u32, weight: u32, piece: usize) -> Side<'a> {
        let words = self.input.words(self.n);
        Side::lent(who, self.out_words(), move |out| {
            self.pass(side, weight, words.chunks(piece), out)
        })
    }

    /// One feed, always of the table's first words.
    fn feed(self, count: usize) -> Side<'a> {
        let piece = &self.input.words(self.n)[..count];
        let mut out = vec![0; self.out_words()];
        let session = self.open(0, 0, &mut out);
        Side::new(Ours, move |clock| {
            let answer = clock.each(|| {
                let (mut head, mut kept) = session;
                host::session_feed(piece, &mut out, &mut head, &mut kept)
            });
            assert_eq!(answer, 0);
        })
    }

    /// One read of the last place.
    fn read(self) -> Side<'a> {
        let mut out = vec![0; self.out_words()];
        let (mut head, mut kept) = self.open(0, 0, &mut out);
        let place = (1 << (self.n - self.k)) - 1;
        let mut element = [0; 4];
        Side::new(Ours, move |clock| {
            let answer = clock
                .each(|| host::session_read(place, &mut out, &mut head, &mut kept, &mut element));
            assert_eq!(answer, 0);
        })
    }
}

/// The test in C of so many words.
fn check(who: Who, count: usize, unreduced: fn(&[u32]) -> u32) -> Side<'static> {
    let words = vec![0; count];
    Side::new(who, move |clock| {
        assert_eq!(clock.each(|| unreduced(&words)), 0);
    })
}
