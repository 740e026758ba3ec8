//! The sides of a row: the Rust, ours, and what stands beside ours.

use p3_field::Element;
use p3_multilinear_util::poly::Poly;

use crate::clock::Clock;

#[derive(Clone, Copy, Debug, PartialEq, Eq)]
pub enum Who {
    Rust,
    Ours,
    /// The same form by hand.
    C,
    /// The best form by hand, with vectors.
    Limit,
    /// Our fold in one call, beside a session.
    Fold,
    /// Our fold on words, beside that on bytes.
    Words,
    /// Our sessions of each column alone, beside one of all columns.
    Apart,
    /// The same of ours on shifted weight, beside that on cyclic weight.
    Shifted,
    /// And on next weight.
    Next,
    /// A process that reads nothing, beside one that reads frames.
    Start,
}

impl Who {
    pub fn name(self) -> &'static str {
        match self {
            Self::Rust => "Rust",
            Self::Ours => "ours",
            Self::C => "C",
            Self::Limit => "limit",
            Self::Fold => "fold",
            Self::Words => "words",
            Self::Apart => "apart",
            Self::Shifted => "shifted",
            Self::Next => "next",
            Self::Start => "start",
        }
    }
}

pub struct Side<'a> {
    pub who: Who,
    pub run: Box<dyn FnMut(&mut Clock) + 'a>,
}

impl<'a> Side<'a> {
    pub fn new(who: Who, run: impl FnMut(&mut Clock) + 'a) -> Self {
        let run = Box::new(run);
        Self { who, run }
    }

    /// A call that gives what it makes.
    pub fn given<T: Words>(who: Who, mut call: impl FnMut() -> T + 'a) -> Self {
        Self::new(who, move |clock| {
            let made = clock.each(&mut call);
            clock.leaves(|| made.words());
        })
    }

    /// A call that is lent the words of its answer, and answers 0.
    pub fn whole<const N: usize>(
        who: Who,
        mut call: impl FnMut(&mut [u32; N]) -> u32 + 'a,
    ) -> Self {
        Self::lent(who, N, move |out| call(out.try_into().unwrap()))
    }

    /// A call that is lent so many words, the same ones in every run, and
    /// answers 0.
    pub fn lent(who: Who, count: usize, mut call: impl FnMut(&mut [u32]) -> u32 + 'a) -> Self {
        let mut out = vec![0; count];
        Self::new(who, move |clock| {
            assert_eq!(clock.each(|| call(&mut out)), 0, "{who:?} refused");
            clock.leaves(|| out.clone());
        })
    }

    /// The same side, what it leaves being shown as another leaves it.
    pub fn shown(self, shown: impl Fn(Vec<u32>) -> Vec<u32> + 'a) -> Self {
        let Self { who, mut run } = self;
        Self::new(who, move |clock| {
            run(clock);
            clock.shows(&shown);
        })
    }
}

/// What can be compared word by word.
pub trait Words {
    fn words(&self) -> Vec<u32>;
}

impl Words for Element {
    fn words(&self) -> Vec<u32> {
        Element::words(*self).to_vec()
    }
}

impl Words for [Element] {
    fn words(&self) -> Vec<u32> {
        self.iter().flat_map(|element| element.words()).collect()
    }
}

impl Words for Poly<Element> {
    fn words(&self) -> Vec<u32> {
        self.as_slice().words()
    }
}

impl Words for (Element, Element, Element) {
    fn words(&self) -> Vec<u32> {
        [self.0, self.1, self.2].words()
    }
}
