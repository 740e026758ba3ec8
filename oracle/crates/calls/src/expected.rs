//! What a call must answer and leave: document 01's refusals in their order, and
//! for accepted input the unchanged Rust crate's values.

use crate::rust::Arm;
use crate::{Call, Slice};

/// What a call answers, and what it leaves in the slices lent to it.
#[derive(Clone, PartialEq)]
pub struct Outcome<const N: usize, T = u32> {
    pub answer: u32,
    pub lent: [Vec<T>; N],
}

/// The expected outcome: the first refusal whose test holds, and then the lent
/// slices as they were; otherwise 0 and the slices that `accepted` gives.
pub fn expect<const N: usize, T: Clone>(
    refusals: &[(bool, u32)],
    before: [&[T]; N],
    accepted: impl FnOnce() -> [Vec<T>; N],
) -> Outcome<N, T> {
    match refusals.iter().find(|(holds, _)| *holds) {
        Some(&(_, answer)) => Outcome {
            answer,
            lent: before.map(<[T]>::to_vec),
        },
        None => Outcome {
            answer: 0,
            lent: accepted(),
        },
    }
}

impl Call {
    /// The expected outcomes of this call, by each of the Rust's arms. A refusal
    /// is document 01's, so there is one.
    pub fn expected(&self) -> Vec<Outcome<2>> {
        let refusals = self.refusals();
        let refused = refusals.iter().any(|(holds, _)| *holds);
        let arms = Arm::of(self.operation);
        arms[..if refused { 1 } else { arms.len() }]
            .iter()
            .map(|&arm| expect(&refusals, self.lent(), || self.accepted(arm)))
            .collect()
    }

    /// Work and out before the call.
    pub fn lent(&self) -> [&[u32]; 2] {
        [Slice::Work, Slice::Out].map(|slice| &self.slices[slice as usize][..])
    }
}
