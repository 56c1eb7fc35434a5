//! What wrong versions remember of the vertices that were met: when, and by
//! what. The right version has no need of it.

use std::collections::HashMap;

use crate::mutant::{Fault, Mutant};

/// When a vertex was met first and last, what it was offered first, and by how
/// many records of its first step.
struct Story {
    met: usize,
    last: usize,
    offer: u32,
    records: usize,
}

#[derive(Default)]
pub struct Newcomers {
    step: usize,
    stories: HashMap<u32, Story>,
    /// Those of the step under way.
    fresh: Vec<u32>,
}

/// The wrong versions that ask.
const ASKING: [Mutant; 6] = [
    Mutant::ForgetNewKept,
    Mutant::ForgetNewAlone,
    Mutant::ForgetFirstOffer,
    Mutant::ForgetSlotFirst,
    Mutant::ForgetSeveral,
    Mutant::ForgetHalves,
];

impl Newcomers {
    pub fn matter<F: Fault>(fault: F) -> bool {
        ASKING.into_iter().any(|mutant| fault.is(mutant))
    }

    pub fn next_step(&mut self) {
        self.step += 1;
        self.fresh.clear();
    }

    pub fn meet(&mut self, vertex: u32, offer: u32, record: bool) {
        let step = self.step;
        let fresh = &mut self.fresh;
        let story = self.stories.entry(vertex).or_insert_with(|| {
            fresh.push(vertex);
            Story {
                met: step,
                last: step,
                offer,
                records: 0,
            }
        });
        story.last = step;
        story.records += usize::from(record && story.met == step);
    }

    pub fn fresh(&self) -> impl Iterator<Item = u32> + '_ {
        self.fresh.iter().copied()
    }

    pub fn first_offer(&self, vertex: u32) -> u32 {
        self.stories.get(&vertex).map_or(0, |story| story.offer)
    }

    /// Whether no later step than the first has touched it.
    pub fn only_once(&self, vertex: u32) -> bool {
        let story = self.stories.get(&vertex);
        story.is_some_and(|story| story.met == story.last)
    }

    /// Whether several records met it in its first step.
    pub fn several(&self, vertex: u32) -> bool {
        let story = self.stories.get(&vertex);
        story.is_some_and(|story| story.records > 1)
    }
}
