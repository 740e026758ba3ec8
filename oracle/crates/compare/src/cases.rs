//! The cases of one operation: calls that fit, and calls that were changed.

use calls::Operation::{EqualityAtVertex, EvalSelect};
use calls::{Call, Damage, LIMITS, P};

use crate::operation::Calls;
use crate::run::choices;

impl Calls<'_> {
    /// Calls of every size up to the most variables or coordinates, and one more.
    /// Up to the size `small` they are exhaustive, at most `most` of a size.
    pub fn every_size(&mut self, small: usize, most: usize) {
        for n in 0..=small {
            self.exhaustive(n, 0, most);
            self.damaged(n, 0);
        }
        for n in 0..=10 {
            self.around(n, 0, self.run.count(200, 5_000));
        }
        for n in 11..=20 {
            self.random(n, 0, self.run.count(1, 10));
        }
        self.damaged_at_random(20, 0, self.run.count(3, 50));
        self.random(21, 0, 1);
    }

    /// Calls of one size: at the limits, and so many at random and damaged.
    pub fn around(&mut self, n: usize, m: usize, count: usize) {
        self.scales(n, m);
        self.largest(n, m);
        self.random(n, m, count);
        self.damaged_at_random(n, m, count);
    }

    /// Calls that fit.
    pub fn random(&mut self, n: usize, m: usize, count: usize) {
        for _ in 0..count {
            let given = self.fitting(n, m);
            self.case(&given);
        }
    }

    /// A call that fits, with each number.
    pub fn numbers(&mut self, n: usize, m: usize) {
        let mut given = self.fitting(n, m);
        for number in numbers(&given, n) {
            given.number = number;
            self.case(&given);
        }
    }

    /// Calls that fit, with 0, 1 and -1 for the scales or r.
    fn scales(&mut self, n: usize, m: usize) {
        for word in [0, 1, P - 1] {
            let mut given = self.fitting(n, m);
            given.multiply_by([word, 0, 0, 0]);
            self.case(&given);
        }
    }

    /// Calls that fit, with the largest word all over the table, and all over
    /// what is read: sums that are reduced late are largest there.
    pub fn largest(&mut self, n: usize, m: usize) {
        for all in [false, true] {
            let mut given = self.fitting(n, m);
            given.enlarge(all);
            self.case(&given);
        }
    }

    /// Every choice of elements, of as many kinds as give at most `most` calls,
    /// with each number.
    pub fn exhaustive(&mut self, n: usize, m: usize, most: usize) {
        let random = [0; 2].map(|_| [0; 4].map(|_| self.run.random.below(P)));
        let base = |word| [word, 0, 0, 0];
        let kinds = [
            base(0),
            base(1),
            base(P - 1),
            base(2),
            random[0],
            [0, 1, 0, 0],
            [P - 1; 4],
            random[1],
        ];
        let mut given = self.fitting(n, m);
        let numbers = numbers(&given, n);
        for choice in choices(&kinds, given.places(), most / numbers.len()) {
            given.fill(&choice);
            for &number in &numbers {
                given.number = number;
                self.case(&given);
            }
        }
    }

    /// A call that fits, with these changes in turn.
    fn changed(&mut self, n: usize, m: usize, changes: &[Damage]) {
        let mut given = self.fitting(n, m);
        for &change in changes {
            given.damage(change, &mut self.run.random);
        }
        self.case(&given);
    }

    /// A call that fits, with each of these changes.
    pub fn changed_each(&mut self, n: usize, m: usize, changes: &[Damage]) {
        let fitting = self.fitting(n, m);
        for &change in changes {
            let mut given = fitting.clone();
            given.damage(change, &mut self.run.random);
            self.case(&given);
        }
    }

    /// Each change alone, and every two; in a long run every three.
    pub fn damaged(&mut self, n: usize, m: usize) {
        let all = self.changes(n, m);
        for &first in &all {
            self.changed(n, m, &[first]);
            for &second in &all {
                self.changed(n, m, &[first, second]);
                let thirds = &all[..self.run.count(0, all.len())];
                for &third in thirds {
                    self.changed(n, m, &[first, second, third]);
                }
            }
        }
    }

    /// Changes at random, one or two.
    pub fn damaged_at_random(&mut self, n: usize, m: usize, count: usize) {
        let all = self.changes(n, m);
        for _ in 0..count {
            let changes = [0; 2].map(|_| all[self.run.random.below(all.len() as u32) as usize]);
            let made = 1 + self.run.random.below(2) as usize;
            self.changed(n, m, &changes[..made]);
        }
    }
}

/// Numbers for a call that fits n: each vertex, or var at the limits.
fn numbers(given: &Call, n: usize) -> Vec<u64> {
    match given.operation {
        EqualityAtVertex => (0..1 << n).collect(),
        EvalSelect => LIMITS.map(u64::from).to_vec(),
        _ => vec![given.number],
    }
}
