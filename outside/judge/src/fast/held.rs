//! Which entries are held: what is met, but for what is dropped or forgotten.

use super::newcomers::Newcomers;
use super::search::{Entry, Search};
use crate::mutant::{Fault, Mutant};
use crate::records::NONE;

impl<F: Fault> Search<'_, '_, F> {
    /// Keeps the number of held entries after one of them was touched. Inside
    /// a step an entry may stand for a moment; after it the number is exact.
    pub fn count(&mut self, vertex: u32, before: bool) {
        match (before, self.is_held(vertex)) {
            (false, true) => self.held += 1,
            (true, false) => {
                self.held -= 1;
                self.dropped += 1;
            }
            _ => {}
        }
    }

    pub fn is_held(&self, vertex: u32) -> bool {
        let entry = self.entries[vertex as usize];
        entry.met && !self.is_dropped(entry) && !self.is_forgotten(vertex, entry)
    }

    /// Settled, and no record remains.
    fn is_dropped(&self, entry: Entry) -> bool {
        let settled = entry.settled || self.fault.is(Mutant::DropUnsettled);
        settled && entry.remaining == 0 && !self.fault.is(Mutant::DropNever)
    }

    /// Hopeless: unsettled and above D or none, and no record remains that
    /// could still offer less.
    fn is_forgotten(&self, vertex: u32, entry: Entry) -> bool {
        let hopeless = !entry.settled && self.none_left(entry) && self.beyond(vertex, entry);
        hopeless && !self.is_kept(vertex, entry)
    }

    fn none_left(&self, entry: Entry) -> bool {
        let left = u32::from(self.fault.is(Mutant::ForgetOneLeft));
        entry.remaining <= left || self.fault.is(Mutant::ForgetRemaining)
    }

    /// "None" is larger than every distance.
    fn beyond(&self, vertex: u32, entry: Entry) -> bool {
        let fault = self.fault;
        if fault.is(Mutant::ForgetFloor) {
            return entry.known / self.query.speed > self.query.duration;
        }
        if fault.is(Mutant::ForgetFirstOffer) {
            return self.newcomers.first_offer(vertex) > self.window;
        }
        entry.known > self.window || (entry.known == self.window && fault.is(Mutant::ForgetAtD))
    }

    /// What wrong versions hold though it is hopeless.
    fn is_kept(&self, vertex: u32, entry: Entry) -> bool {
        let fault = self.fault;
        let seed = vertex == self.road.from || vertex == self.road.to;
        fault.is(Mutant::ForgetNever)
            || (fault.is(Mutant::ForgetNoneKept) && entry.known == NONE)
            || (fault.is(Mutant::ForgetNoneAlone) && entry.known != NONE)
            || (fault.is(Mutant::ForgetSeedKept) && seed)
            || (fault.is(Mutant::ForgetUpperKept) && vertex >= 32_768)
            || (fault.is(Mutant::ForgetNewKept) && self.newcomers.only_once(vertex))
            || (fault.is(Mutant::ForgetNewAlone) && !self.newcomers.only_once(vertex))
    }

    /// Slots that wrong versions ask for beyond those of the held entries: one
    /// for a newcomer of this step that is forgotten in it.
    pub fn passing(&self) -> usize {
        let fault = self.fault;
        if !Newcomers::matter(fault) {
            return 0;
        }
        let gone = |vertex: &u32| !self.is_held(*vertex);
        let gone: Vec<u32> = self.newcomers.fresh().filter(gone).collect();
        let takes = match () {
            _ if fault.is(Mutant::ForgetSlotFirst) => !gone.is_empty(),
            _ if fault.is(Mutant::ForgetSeveral) => gone.iter().any(|&v| self.newcomers.several(v)),
            _ if fault.is(Mutant::ForgetHalves) => {
                let upper = gone.iter().filter(|&&v| v >= 32_768).count();
                upper > 0 && upper < gone.len()
            }
            _ => false,
        };
        usize::from(takes)
    }
}
