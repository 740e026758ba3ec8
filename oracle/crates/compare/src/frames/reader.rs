//! What foldframes must print, by document 01's "Frames" and "Program, line by
//! line", and document 02's (b) for the coordinates, (d) for missing words and
//! (f) for the weight `03`. Out is that of the library's fold session, and of the
//! Rust's folds.

use calls::{MOST, Tests, unreduced};

use crate::met::Met;
use crate::step::Kind::{Close, Feed, Open};
use crate::step::{Step, WEIGHTS, WORDS};

use super::text::{bytes, words};

use Place::{After, Coordinate, End, Head, NoFrame, Rows, Stop};

/// The most words of a frame.
const MOST_WORDS: u8 = 16;

/// The most variables that remain.
const MOST_REMAIN: u8 = 10;

/// Where a refusal is met: at a frame of some kind, at a line that is none, at a
/// line after `04`, at the end of the input.
#[derive(Clone, Copy, Debug, PartialEq, Eq, PartialOrd, Ord)]
pub enum Place {
    Head,
    Coordinate,
    Rows,
    Stop,
    NoFrame,
    After,
    End,
}

/// What has been read.
#[derive(Default)]
struct Reader {
    /// Open's arguments.
    head: Option<Step>,
    coordinates: Vec<Vec<u32>>,
    began: bool,
    table: Vec<u32>,
    closed: bool,
}

/// What is printed: out by each way to compute it, where `04` was accepted, and
/// then a refusal.
#[derive(Default)]
pub struct Printed {
    pub outs: Vec<Vec<u32>>,
    pub refusal: Option<u32>,
}

pub fn read(input: &[u8], met: &mut Met<Place>) -> Printed {
    let mut reader = Reader::default();
    let mut printed = Printed::default();
    for line in input.split_inclusive(|&byte| byte == b'\n') {
        let frame = bytes(line.strip_suffix(b"\n").unwrap_or(line));
        let (place, tests) = reader.tests(&frame);
        met.note(place, &tests);
        if let Some((_, refusal)) = tests.iter().find(|(holds, _)| *holds) {
            printed.refusal = Some(*refusal);
            return printed;
        }
        reader.take(&frame, &mut printed);
    }
    if !reader.closed {
        met.note(End, &[(true, 9)]);
        printed.refusal = Some(9);
    }
    printed
}

impl Reader {
    /// Tests in document 01's order, each with the refusal where it holds.
    fn tests(&self, frame: &[u8]) -> (Place, Tests) {
        let early = self.head.is_none();
        match *frame {
            _ if self.closed => (After, vec![(true, 10)]),
            [1, side, weight, n, k, ref scale @ ..] if scale.len() == 16 => {
                let tests = vec![
                    (!early || side > 1 || weight as u32 >= WEIGHTS, 12),
                    (n.max(k) as u64 > MOST, 3),
                    (k > n, 4),
                    (unreduced([&words(scale)]), 5),
                    (n.saturating_sub(k) > MOST_REMAIN, 3),
                ];
                (Head, tests)
            }
            [2, index, ref element @ ..] if element.len() == 16 => {
                let index = index as usize;
                let tests = vec![
                    (early || self.began, 12),
                    (index != self.coordinates.len(), 13),
                    (self.k().is_some_and(|k| index >= k), 13),
                    (unreduced([&words(element)]), 5),
                ];
                (Coordinate, tests)
            }
            [3, count, ref piece @ ..] if piece.len() == 4 * count as usize => {
                let tests = vec![
                    (early || count > MOST_WORDS, 12),
                    (self.lacks(), 13),
                    (unreduced([&words(piece)]), 5),
                    (self.passes(count), 8),
                ];
                (Rows, tests)
            }
            [4] => (Stop, vec![(early, 12), (self.lacks(), 13)]),
            _ => (NoFrame, vec![(true, 12)]),
        }
    }

    fn k(&self) -> Option<usize> {
        self.head.as_ref().map(|head| head.point.len() / 4)
    }

    /// Coordinates are missing at the first `03` or `04`.
    fn lacks(&self) -> bool {
        !self.began && self.k().is_some_and(|k| self.coordinates.len() < k)
    }

    /// So many words more are more than the table has.
    fn passes(&self, count: u8) -> bool {
        let passes = |head: &Step| self.table.len() + count as usize > 1 << head.n;
        self.head.as_ref().is_some_and(passes)
    }

    /// Takes an accepted frame.
    fn take(&mut self, frame: &[u8], printed: &mut Printed) {
        match *frame {
            [1, side, weight, n, k, ref scale @ ..] => {
                self.head = Some(Step {
                    kind: Open,
                    n: n.into(),
                    columns: 1,
                    side: side.into(),
                    weight: weight.into(),
                    scale: words(scale),
                    point: vec![0; 4 * k as usize],
                    piece: vec![],
                    place: 0,
                    words: vec![0; WORDS],
                    out: vec![0; 4 << (n - k)],
                    element: vec![0; 4],
                });
            }
            [2, _, ref element @ ..] => self.coordinates.push(words(element)),
            [3, _, ref piece @ ..] => {
                self.began = true;
                self.table.extend(words(piece));
            }
            _ => {
                self.closed = true;
                printed.outs = self.outs();
            }
        }
    }

    /// Out of a session fed the words and then those that are missing, and of
    /// the Rust's fold of all of them.
    fn outs(&mut self) -> Vec<Vec<u32>> {
        let step = self.head.as_mut().unwrap();
        step.point = self.coordinates.concat();
        let fed = self.table.len();
        pad(&mut self.table, step);
        let (came, missing) = self.table.split_at(fed);
        let [mut session, mut out] = [step.words.clone(), step.out.clone()];
        for (kind, piece) in [(Open, &[][..]), (Feed, came), (Feed, missing), (Close, &[])] {
            (step.kind, step.piece) = (kind, piece.to_vec());
            assert_eq!(
                step.ours(&mut session, &mut out, &mut [0; 4]),
                0,
                "the library's session"
            );
        }
        let folds = step.folded(&self.table).into_iter();
        [out]
            .into_iter()
            .chain(folds.map(|fold| fold.lent.concat()))
            .collect()
    }
}

/// Appends the missing words: on the prefix side, once one whole row has come,
/// each is the word a row before it, and else 0.
fn pad(table: &mut Vec<u32>, head: &Step) {
    let row = head.out.len() / 4;
    let repeats = head.side == 0 && table.len() >= row;
    while table.len() < 1 << head.n {
        table.push(match repeats {
            true => table[table.len() - row],
            false => 0,
        });
    }
}
