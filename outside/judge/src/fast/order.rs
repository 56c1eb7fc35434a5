//! Wrong orders of settling, for mutants alone: the right one is the heap's.

use super::hops;
use super::list::own_list;
use super::search::Search;
use crate::mutant::{Fault, Mutant};
use crate::records::{Hop, Query, Settled, Tables, NONE};

/// What the right version settles, where a mutant has another order.
pub fn own<F: Fault>(tables: Tables, query: Query, fault: F) -> Vec<Settled> {
    let orders = [
        Mutant::OrderByNumber,
        Mutant::OrderAnyOffer,
        Mutant::OrderCircle,
    ];
    match orders.iter().any(|&mutant| fault.is(mutant)) {
        true => own_list(tables, query),
        false => Vec::new(),
    }
}

impl<F: Fault> Search<'_, '_, F> {
    /// What a mutant settles next: the first by distance and number of those
    /// that it takes for eligible. None where the heap decides.
    pub fn otherwise(&self) -> Option<Option<u32>> {
        if self.own.is_empty() {
            return None;
        }
        let known = |own: &Settled| self.entries[own.vertex as usize].known;
        let eligible = |own: &&Settled| {
            if self.fault.is(Mutant::OrderByNumber) {
                return true;
            }
            if self.fault.is(Mutant::OrderAnyOffer) {
                return known(own) != NONE;
            }
            let circle = (own.vertex, own.distance);
            known(own) == own.distance || self.circles().contains(&circle)
        };
        let unsettled = |own: &&Settled| !self.entries[own.vertex as usize].settled;
        let waiting = self.own.iter().filter(unsettled);
        let next = waiting
            .filter(eligible)
            .min_by_key(|own| (own.distance, own.vertex));
        Some(next.map(|own| own.vertex))
    }

    /// A vertex that a mutant settles before it is offered its distance.
    pub fn bring(&mut self, vertex: u32) {
        let own = self.own.iter().find(|own| own.vertex == vertex);
        if let Some(distance) = own.map(|own| own.distance) {
            self.meet(vertex, Some(distance), false);
        }
    }

    /// The vertices with a ride of no minutes to one that rides back at the
    /// same second, and what such a ride would offer.
    pub fn circles(&self) -> Vec<(u32, u32)> {
        let count = hops::count(self.tables, self.fault);
        let read = |i| hops::read(self.tables, i, self.fault);
        let still = |hop: &Hop| hop.departure == hop.arrival && hop.arrival <= self.query.arrival;
        let still: Vec<Hop> = (0..count).map(read).filter(still).collect();
        let back = |hop: &&Hop| {
            let same = |other: &Hop| {
                (other.from, other.to, other.arrival) == (hop.to, hop.from, hop.arrival)
            };
            still.iter().any(same)
        };
        let ticks = |hop: &Hop| (self.query.arrival - hop.arrival) as u32 * self.query.speed;
        let circles = still.iter().filter(back);
        circles.map(|hop| (hop.from, ticks(hop))).collect()
    }
}
