//! The fold session: tables fed in pieces, with reads and refused calls among
//! them.

use calls::{Outcome, Random, entries, expect};

use crate::changes::{OPEN, OPENED};
use crate::met::Met;
use crate::run::Input::{Number, Words};
use crate::run::{Input, Run, call};
use crate::step::Kind::{Close, Feed, Open, Read};
use crate::step::{Kind, MOST_COLUMNS, NO_SESSION, Step, WEIGHTS, WORDS, wide};

/// Each call's refusals in their order.
const REFUSALS: [(Kind, &[u32]); 4] = [
    (Open, &[1, 3, 15, 4, 5]),
    (Feed, &[11, 10, 4, 5, 8]),
    (Close, &[11, 10, 4, 5, 9]),
    (Read, &[11, 4, 5, 14]),
];

/// A session closed with words missing is broken: none meets 10 before 9.
const EXCLUSIVE: [(u32, u32); 1] = [(10, 9)];

/// The columns of sessions on the prefix side.
const COLUMNS: [u64; 5] = [1, 2, 3, 4, MOST_COLUMNS];

/// More words than a table has: it is fed as one piece.
const WHOLE: usize = usize::MAX;

/// The most places of which each is read once a session is closed.
const FEW: u64 = 64;

/// How a session is opened.
#[derive(Clone, Copy)]
struct Opened {
    n: usize,
    k: usize,
    columns: u64,
    side: u32,
    weight: u32,
}

struct Sessions<'a> {
    run: &'a mut Run,
    /// By kind of call, and whether its words are a session's.
    met: Met<(Kind, bool)>,
}

pub fn compare(run: &mut Run) {
    run.operation("host_session_open, _feed, ..", |run| {
        let met = Met::new();
        let mut sessions = Sessions { run, met };
        for n in 0..=8 {
            for k in 0..=n {
                sessions.all(n, k, sessions.run.count(1, 20));
            }
        }
        for k in [0, 1, 6, 11, 12] {
            sessions.all(12, k, sessions.run.count(1, 5));
        }
        for side in [0, 1] {
            for &weight in &[2, 3, 0, 1][..sessions.run.count(2, 4)] {
                sessions.session(Opened::new(20, 10, 1, side, weight), Some(4_096));
            }
        }
        for weight in [2, 3] {
            // The most coordinates: none is unused.
            sessions.session(Opened::new(20, 20, 1, 0, weight), Some(1 << 19));
            // The most words.
            sessions.session(Opened::new(20, 10, MOST_COLUMNS, 0, weight), Some(1 << 23));
        }
        for (kind, refusals) in REFUSALS {
            sessions.met.demand((kind, true), refusals, &EXCLUSIVE);
            sessions.met.demand((kind, false), &[NO_SESSION], &[]);
        }
    });
}

impl Opened {
    fn new(n: usize, k: usize, columns: u64, side: u32, weight: u32) -> Self {
        Self {
            n,
            k,
            columns,
            side,
            weight,
        }
    }

    /// The words of its table.
    fn words(&self) -> usize {
        wide(self.n as u64, self.columns).unwrap() as usize
    }

    /// The words of a row, which are the elements of out.
    fn row(&self) -> usize {
        self.words() >> self.k
    }

    /// The call of open.
    fn step(&self, random: &mut Random) -> Step {
        Step {
            kind: Open,
            n: self.n as u64,
            columns: self.columns,
            side: self.side,
            weight: self.weight,
            scale: random.elements(4),
            point: random.elements(4 * self.k),
            piece: vec![],
            place: 0,
            words: random.stale(WORDS),
            out: random.stale(4 * self.row()),
            element: random.stale(4),
        }
    }

    /// The length of a piece: none, one, sixteen, past the edge of a row or of a
    /// suffix place, as many as a row has places, within the columns of a place, or
    /// any.
    fn piece(&self, random: &mut Random, left: usize) -> usize {
        match random.below(10) {
            0 => 0,
            1 | 2 => 1,
            3 => 16,
            4 => (1 << self.k) + 1,
            5 => self.row() + 1,
            6 => 1 << (self.n - self.k),
            7 => 1 + random.below(self.columns as u32) as usize,
            _ => random.below(left as u32 + 1) as usize,
        }
    }
}

impl Sessions<'_> {
    /// Sessions of each side and weight, fed in several ways; each way with each
    /// count of columns by turns.
    fn all(&mut self, n: usize, k: usize, count: usize) {
        for choice in 0..2 * WEIGHTS as usize * count {
            let (side, weight) = (choice as u32 % 2, choice as u32 / 2 % WEIGHTS);
            let lengths = [None, None, None, Some(16), Some(WHOLE)];
            for (way, length) in lengths.into_iter().enumerate() {
                let columns = match side {
                    0 => COLUMNS[(n + k + choice / 2 + way) % COLUMNS.len()],
                    _ => 1,
                };
                self.session(Opened::new(n, k, columns, side, weight), length);
            }
        }
    }

    /// One session from open to close, its table fed in pieces of this length
    /// or else of random lengths.
    fn session(&mut self, opened: Opened, length: Option<usize>) {
        let random = &mut self.run.random;
        let table = random.words(opened.words());
        let mut step = opened.step(random);
        self.step(&mut step);
        let mut left = &table[..];
        step.kind = Feed;
        while !left.is_empty() {
            self.reads(&step, &table, table.len() - left.len());
            let random = &mut self.run.random;
            let length = length.unwrap_or_else(|| opened.piece(random, left.len()));
            let (piece, after) = left.split_at(length.min(left.len()));
            (step.piece, left) = (piece.to_vec(), after);
            self.step(&mut step);
        }
        step.piece.clear();
        self.step(&mut step);
        step.kind = Close;
        self.step(&mut step);
        self.reads(&step, &table, table.len());
        self.read_each(&step);
        self.whole(&step, &table);
        for kind in [Feed, Close, Read, Feed, Close, Read] {
            step.kind = kind;
            self.damaged(&step);
        }
    }

    /// A read of each place, where they are few.
    fn read_each(&mut self, step: &Step) {
        let places = entries(&step.out);
        if places > FEW {
            return;
        }
        let mut step = step.clone();
        step.kind = Read;
        for place in 0..places {
            step.place = place;
            self.case(&step);
        }
    }

    /// Calls like this one, most of them refused, and then the call itself.
    fn step(&mut self, step: &mut Step) {
        let most = if step.kind == Feed { 3 } else { 5 };
        for _ in 0..self.run.random.below(most) {
            self.damaged(step);
        }
        [step.words, step.out, step.element] = self.case(step).lent;
    }

    /// Now and then a read of a random place, beside the Rust's fold of the words
    /// that were taken and of 0 for the rest; and calls like it, most of them
    /// refused. None of them changes the session.
    fn reads(&mut self, step: &Step, table: &[u32], taken: usize) {
        let random = &mut self.run.random;
        let seldom = if table.len() > 1 << 12 { 16 } else { 2 };
        if random.below(seldom) > 0 {
            return;
        }
        let places = step.out.len() / 4;
        let mut step = step.clone();
        step.kind = Read;
        step.place = random.below(places as u32).into();
        for _ in 0..random.below(3) {
            self.damaged(&step);
        }
        let read = self.case(&step);
        let [_, _, element] = read.lent;
        let got = Outcome {
            answer: read.answer,
            lent: [element],
        };

        let mut so_far = table.to_vec();
        so_far[taken..].fill(0);
        let mut inputs = arguments(&step);
        inputs.push(("place", Number(step.place)));
        inputs.push(("table", Words(table)));
        inputs.push(("words taken", Number(taken as u64)));
        self.run.same(&inputs, &step.folded_place(&so_far), &got);
    }

    /// The call with up to two changes.
    fn damaged(&mut self, step: &Step) {
        let mut step = step.clone();
        let random = &mut self.run.random;
        let changes = if step.kind == Open { OPEN } else { OPENED };
        for _ in 0..random.below(3) {
            changes[random.below(changes.len() as u32) as usize](&mut step, random);
        }
        self.case(&step);
    }

    fn case(&mut self, step: &Step) -> Outcome<3> {
        let refusals = step.refusals();
        let is_session = refusals[0].1 != NO_SESSION;
        self.met.note((step.kind, is_session), &refusals);

        let before = [&step.words[..], &step.out, &step.element];
        let expected = expect(&refusals, before, || step.accepted());
        let got = call(before, |[words, out, element]| {
            step.ours(words, out, element)
        });
        let mut inputs = match step.kind {
            Open => arguments(step),
            Feed => vec![("piece", Words(&step.piece))],
            Close => vec![],
            Read => vec![("place", Number(step.place))],
        };
        inputs.push(("session before", Words(before[0])));
        inputs.push(("out before", Words(before[1])));
        self.run.same(&inputs, &[expected], &got);
        got
    }

    /// The closed session's out beside the Rust's fold of the whole table.
    fn whole(&mut self, step: &Step, table: &[u32]) {
        let mut inputs = arguments(step);
        inputs.push(("table", Words(table)));
        let got = call([&step.out], |_| 0);
        self.run.same(&inputs, &step.folded(table), &got);
    }
}

fn arguments(step: &Step) -> Vec<(&str, Input<'_>)> {
    vec![
        ("point", Words(&step.point)),
        ("scale", Words(&step.scale)),
        ("n", Number(step.n)),
        ("columns", Number(step.columns)),
        ("side", Number(step.side.into())),
        ("weight", Number(step.weight.into())),
    ]
}
