//! Which refusals were met. A run must meet each refusal of a list alone, and
//! every two of them at once: otherwise their order is not compared.

use std::collections::BTreeSet;
use std::fmt::Debug;
use std::process;

/// Pairs of refusals of a kind of call, by their places in its list: some call
/// met the first before all others, and the second as well. A refusal that came
/// alone is paired with itself.
pub struct Met<K>(BTreeSet<(K, usize, usize)>);

impl<K: Copy + Debug + Ord> Met<K> {
    pub fn new() -> Self {
        Self(BTreeSet::new())
    }

    /// Notes which of a call's tests hold.
    pub fn note(&mut self, kind: K, tests: &[(bool, u32)]) {
        let holding: Vec<_> = (0..tests.len()).filter(|&i| tests[i].0).collect();
        match holding[..] {
            [] => {}
            [only] => _ = self.0.insert((kind, only, only)),
            [first, ref others @ ..] => self.0.extend(others.iter().map(|&i| (kind, first, i))),
        }
    }

    /// Ends the run where some of these refusals were not met, or no two of them
    /// at once. No call meets an exclusive pair.
    pub fn demand(&self, kind: K, list: &[u32], exclusive: &[(u32, u32)]) {
        for (i, &first) in list.iter().enumerate() {
            for (j, &second) in list.iter().enumerate().skip(i) {
                let met = self.0.contains(&(kind, i, j));
                if !met && (i == j || !exclusive.contains(&(first, second))) {
                    match i == j {
                        true => println!("{kind:?}: no call met refusal {first} alone"),
                        false => println!("{kind:?}: no call met refusals {first} and {second}"),
                    }
                    process::exit(1);
                }
            }
        }
    }
}
