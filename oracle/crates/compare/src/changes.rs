//! Changes of a session's call. Most make it refused; two together make it
//! refused for two reasons.

use calls::{Random, UNREDUCED};
use host::COORDINATES;

use crate::step::Kind::{Close, Feed, Read};
use crate::step::{CLOSED, COLUMNS, K, N, POINT, SCALE, SIDE, TAKEN, WEIGHT, WORDS};
use crate::step::{MOST_COLUMNS, Step, WEIGHTS, most_columns, wide};

pub type Change = fn(&mut Step, &mut Random);

/// Changes of a call of open.
pub const OPEN: &[Change] = &[
    |step, _| step.point.push(0),
    |step, _| step.out.push(0),
    |step, random| step.n = pick(random, [21, 64, 1 << 32, u64::MAX]),
    |step, _| {
        // Too many of both, and no other refusal.
        step.n = 21;
        step.point.resize(84, 1);
        let places = step.columns.min(MOST_COLUMNS) as usize;
        step.out.resize(4 * places, 0);
    },
    |step, random| {
        let over = step.columns.wrapping_add(1 << 32);
        step.columns = pick(random, [0, 2, 17, over, u64::MAX]);
    },
    |step, random| {
        // No count of columns, and no other refusal.
        let over = most_columns(step.side) + 1;
        let other = pick(random, [0, over, over + 1]);
        widen(&mut step.out, step.columns, other);
        step.columns = other;
    },
    |step, random| {
        let above = 4 * step.n.min(20) as usize + 4;
        step.point.resize(above, random.word());
    },
    |step, _| step.out.extend([0; 4]),
    |step, _| step.out.truncate(step.out.len() / 8 * 4),
    |step, random| spoil(&mut step.point, random),
    |step, random| spoil(&mut step.scale, random),
    |step, random| step.side = pick(random, [2, u32::MAX]),
    |step, random| step.weight = pick(random, [WEIGHTS, u32::MAX]),
];

/// Changes of a call of feed, close or read.
pub const OPENED: &[Change] = &[
    |step, _| step.kind = Feed,
    |step, _| step.kind = Close,
    |step, _| step.kind = Read,
    |step, random| {
        let places = (step.table_words() >> (step.point.len() / 4)) as u64;
        step.place = pick(random, [places, places + 1, 1 << 32, u64::MAX]);
    },
    |step, random| {
        let [n, columns, taken] = [N, COLUMNS, TAKEN].map(|at| step.words[at] as u64);
        let words = wide(n.min(20), columns.min(MOST_COLUMNS)).unwrap();
        let left = words.saturating_sub(taken) as usize;
        step.piece.resize(left + 1 + random.below(3) as usize, 1);
    },
    |step, random| spoil(&mut step.piece, random),
    |step, random| spoil(&mut step.out, random),
    |step, random| step.out = random.elements(step.out.len()),
    |step, _| step.out.push(0),
    |step, _| step.out.extend([0; 4]),
    |step, _| step.out.truncate(step.out.len() / 8 * 4),
    |step, random| put(step, N, pick(random, [21, 22, 64, u32::MAX])),
    |step, random| {
        let n = step.n as u32;
        put(step, K, pick(random, [n + 1, 21, u32::MAX]));
    },
    |step, random| {
        let count = pick(random, [0, 17, 1 << 31, u32::MAX]);
        put(step, COLUMNS, count);
    },
    |step, random| {
        // Out fits them; where there may be so many and have come no more words,
        // it is a session.
        let over = most_columns(step.side) + 1;
        let other = pick(random, [0, over, over + 1, 1, 2, 3]);
        widen(&mut step.out, step.words[COLUMNS].into(), other);
        put(step, COLUMNS, other as u32);
    },
    |step, random| {
        let words = step.table_words() as u32;
        put(step, TAKEN, pick(random, [words + 1, words + 2, u32::MAX]));
    },
    |step, random| {
        // As many words as one column has, or all columns.
        let (column, table) = (1 << step.n, step.table_words() as u32);
        put(step, TAKEN, pick(random, [column, column + 1, table]));
    },
    |step, _| put(step, CLOSED, 1),
    |step, random| {
        let at = SCALE + random.below(4) as usize;
        put(step, at, pick(random, UNREDUCED));
    },
    |step, random| {
        let at = POINT + random.below(COORDINATES as u32) as usize;
        put(step, at, pick(random, UNREDUCED));
    },
    |step, random| {
        let unused = COORDINATES - step.point.len();
        put(step, WORDS - 1 - random.below(unused as u32) as usize, 1);
    },
    |step, random| put(step, SIDE, pick(random, [2, u32::MAX])),
    |step, random| put(step, WEIGHT, pick(random, [WEIGHTS, u32::MAX])),
    |step, random| put(step, CLOSED, pick(random, [2, u32::MAX])),
];

/// Out of so many columns becomes as long as other ones ask.
fn widen(out: &mut Vec<u32>, columns: u64, other: u64) {
    let place = out.len() / columns.clamp(1, MOST_COLUMNS) as usize;
    out.resize(place * other as usize, 0);
}

fn pick<T: Copy, const COUNT: usize>(random: &mut Random, from: [T; COUNT]) -> T {
    from[random.below(COUNT as u32) as usize]
}

/// A word of the session becomes this.
fn put(step: &mut Step, at: usize, word: u32) {
    step.words[at] = word;
}

/// A word becomes one that is not below p; where there is none, it gets one.
fn spoil(words: &mut Vec<u32>, random: &mut Random) {
    let word = pick(random, UNREDUCED);
    match words.len() as u32 {
        0 => words.push(word),
        count => words[random.below(count) as usize] = word,
    }
}
