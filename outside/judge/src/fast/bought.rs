//! A bought list: one pass over its entries with an array of what is listed, one
//! over the records.

use super::check::judge_bought;
use super::{hops, list, waits};
use crate::mutant::{Fault, Mutant};
use crate::records::{Hop, Listed, Query, Refusal, Tables, Walk, LISTED, NONE, VERTEX, WALK};

/// The places of the seeds in refusal 28.
const FROM: u32 = NONE - 1;
const TO: u32 = NONE;

pub fn judged<F: Fault>(tables: Tables, query: Query, list: &[u8], fault: F) -> Option<Refusal> {
    judge_bought(tables, query, list.len(), fault).or_else(|| {
        let mut bought = Bought::new(tables, query, list, fault);
        match fault.is(Mutant::BoughtOffersFirst) {
            true => bought.offers_first(),
            false => bought.entries().or_else(|| bought.offers()),
        }
    })
}

struct Bought<'a, F> {
    tables: Tables<'a>,
    query: Query,
    list: &'a [u8],
    fault: F,
    /// The duration in ticks.
    window: u32,
    /// T in ticks.
    end: i32,
    walks: usize,
    hops: usize,
    /// Each vertex with what must not be offered less: the distance listed of it,
    /// or D and 1 where it is not listed.
    least: Vec<u32>,
    seeds: [Option<(u32, u32)>; 2],
    /// Only for a mutant: the distances of a run.
    own: Vec<u32>,
}

impl<'a, F: Fault> Bought<'a, F> {
    fn new(tables: Tables<'a>, query: Query, list: &'a [u8], fault: F) -> Self {
        let window = query.duration * query.speed;
        let vertices = tables.vertices.len() / VERTEX;
        let mut own = Vec::new();
        if fault.is(Mutant::BoughtTrue) || fault.is(Mutant::BoughtTrueOffers) {
            own = vec![window + 1; vertices];
            for settled in list::own_list(tables, query) {
                own[settled.vertex as usize] = settled.distance;
            }
        }
        Bought {
            tables,
            query,
            list,
            fault,
            window,
            end: query.arrival * query.speed as i32,
            walks: tables.walks.len() / WALK,
            hops: hops::count(tables, fault),
            least: vec![window + 1; vertices],
            seeds: seeds(tables, query, fault),
            own,
        }
    }

    fn entry(&self, index: usize) -> Listed {
        Listed::read(self.list, index)
    }

    /// 25 to 27. Every 25 wins over the others, so the pass goes on behind them.
    fn entries(&mut self) -> Option<Refusal> {
        let fault = self.fault;
        let count = self.list.len() / LISTED;
        let (mut far, mut unreasoned) = (None, None);
        if fault.is(Mutant::BoughtLater) {
            self.list_ahead();
        }
        for index in 0..count {
            let entry = self.entry(index);
            if self.repeated(entry, index) {
                return Some(Refusal::at(25, self.named(index)));
            }
            let above = match fault.is(Mutant::BoughtDistanceTight) {
                true => entry.distance >= self.window,
                false => entry.distance > self.window,
            };
            if above && far.is_none() {
                far = Some(Refusal::at(26, index));
            }
            let judged = far.is_none() || fault.is(Mutant::BoughtReasonFirst);
            if judged && unreasoned.is_none() && !self.reasoned(entry, index) {
                unreasoned = Some(Refusal::at(27, index));
            }
            if fault.is(Mutant::BoughtByEntry) && far.or(unreasoned).is_some() {
                break;
            }
            // What is above D was judged: it only has to be seen again.
            self.least[entry.vertex as usize] = if above { NONE } else { entry.distance };
        }
        match fault.is(Mutant::BoughtReasonFirst) {
            true => unreasoned.or(far),
            false => far.or(unreasoned),
        }
    }

    /// Whether the vertex does not exist or stands before.
    fn repeated(&self, entry: Listed, index: usize) -> bool {
        let fault = self.fault;
        let Some(&least) = self.least.get(entry.vertex as usize) else {
            return true;
        };
        if fault.is(Mutant::BoughtLater) {
            return (0..index).any(|before| self.entry(before).vertex == entry.vertex);
        }
        least != self.window + 1
    }

    /// The place of a 25.
    fn named(&self, index: usize) -> usize {
        let same = |before: &usize| self.entry(*before).vertex == self.entry(index).vertex;
        match self.fault.is(Mutant::BoughtEarlier) {
            true => (0..index).find(same).unwrap_or(index),
            false => index,
        }
    }

    /// Only for a mutant: every entry is listed before the first is judged.
    fn list_ahead(&mut self) {
        for index in 0..self.list.len() / LISTED {
            let entry = self.entry(index);
            if let Some(least) = self.least.get_mut(entry.vertex as usize) {
                *least = entry.distance.min(self.window + 1);
            }
        }
    }

    /// What is listed of a vertex so far; NONE where nothing is.
    #[inline]
    fn listed(&self, vertex: u32) -> u32 {
        match self.least[vertex as usize] {
            least if least <= self.window => least,
            _ => NONE,
        }
    }

    /// Refusal 27 is not given.
    fn reasoned(&self, entry: Listed, index: usize) -> bool {
        let fault = self.fault;
        if entry.record == NONE {
            let own = |(vertex, seed): (u32, u32)| {
                let distance = seed == entry.distance || fault.is(Mutant::BoughtSeedAnyDistance);
                let vertex = vertex == entry.vertex || fault.is(Mutant::BoughtSeedAnyVertex);
                vertex && distance
            };
            return self.seeds.into_iter().flatten().any(own);
        }
        if fault.is(Mutant::BoughtNoReason) && entry.record == NONE - 1 {
            return true;
        }
        if fault.is(Mutant::BoughtLastFree) && index + 1 == self.list.len() / LISTED {
            return true;
        }
        let mut record = entry.record as usize;
        if fault.is(Mutant::BoughtHopsFirst) {
            record = match record < self.hops {
                true => record + self.walks,
                false => record.wrapping_sub(self.hops),
            };
        }
        let Some((from, to)) = self.ends(record) else {
            return false;
        };
        let far = match fault.is(Mutant::BoughtTrue) {
            true if self.listed(to) != NONE => self.own[to as usize],
            _ => self.listed(to),
        };
        let starts = from == entry.vertex || fault.is(Mutant::BoughtAnyFrom);
        // Not more than is listed is right for a mutant.
        let offers = |offer: u32| match fault.is(Mutant::BoughtOfferLess) {
            true => offer <= entry.distance,
            false => offer == entry.distance,
        };
        starts && far != NONE && self.offer(record, far).is_some_and(offers)
    }

    fn hop(&self, record: usize) -> Hop {
        hops::read(self.tables, record - self.walks, self.fault)
    }

    /// The ends of a record, if there is one of this number.
    fn ends(&self, record: usize) -> Option<(u32, u32)> {
        if record < self.walks {
            let walk = Walk::read(self.tables.walks, record);
            return Some((walk.from, walk.to));
        }
        let hop = (record - self.walks < self.hops).then(|| self.hop(record))?;
        Some((hop.from, hop.to))
    }

    fn offer(&self, record: usize, far: u32) -> Option<u32> {
        match record < self.walks {
            true => Some(self.walk_offer(Walk::read(self.tables.walks, record), far)),
            false => self.hop_offer(self.hop(record), far),
        }
    }

    #[inline]
    fn walk_offer(&self, walk: Walk, far: u32) -> u32 {
        match self.fault.is(Mutant::BoughtWaitFree) {
            true => far + walk.length,
            false => far + waits::cost(walk, self.query, self.fault),
        }
    }

    /// Only what arrives in time is offered, and then it is not below 0.
    #[inline]
    fn hop_offer(&self, hop: Hop, far: u32) -> Option<u32> {
        let speed = self.query.speed as i32;
        let latest = self.end - far as i32 - i32::from(self.fault.is(Mutant::BoughtStrictArrival));
        let in_time = hop.arrival * speed <= latest;
        in_time.then(|| (self.end - hop.departure * speed) as u32)
    }

    /// Whether a vertex is offered less than is listed of it, or at most D where
    /// it is not listed.
    #[inline]
    fn too_little(&self, vertex: u32, offer: u32) -> bool {
        let least = self.least[vertex as usize];
        let fault = self.fault;
        if least > self.window {
            let tight = u32::from(fault.is(Mutant::BoughtTight));
            return offer < least - tight && !fault.is(Mutant::BoughtUnlisted);
        }
        let loose = u32::from(fault.is(Mutant::BoughtEqual));
        offer < least + loose && !fault.is(Mutant::BoughtLess)
    }

    /// 28: the seeds, then the records.
    fn offers(&self) -> Option<Refusal> {
        let fault = self.fault;
        if fault.is(Mutant::BoughtEmpty) && self.list.is_empty() {
            return None;
        }
        if fault.is(Mutant::BoughtSeedsLate) {
            return self
                .by_walks()
                .or_else(|| self.by_hops())
                .or_else(|| self.by_seeds());
        }
        self.by_seeds()
            .or_else(|| self.by_walks())
            .or_else(|| self.by_hops())
    }

    /// Only for a mutant: 28 before 25 to 27, where the list can be taken in.
    fn offers_first(&mut self) -> Option<Refusal> {
        let first = self.entries();
        match first {
            Some(refusal) if refusal.number < 27 => first,
            _ => self.offers().or(first),
        }
    }

    fn by_seeds(&self) -> Option<Refusal> {
        let mut seeds = [(self.seeds[0], FROM), (self.seeds[1], TO)];
        if self.fault.is(Mutant::BoughtSeedsSwapped) {
            seeds.reverse();
        }
        let mut placed = seeds
            .into_iter()
            .filter_map(|(seed, place)| Some((seed?, place)));
        let found = placed.find(|&((vertex, seed), _)| self.too_little(vertex, seed));
        found.map(|(_, place)| Refusal { number: 28, place })
    }

    #[inline]
    fn far(&self, vertex: u32) -> u32 {
        let far = self.listed(vertex);
        if self.fault.is(Mutant::BoughtTrueOffers) && far != NONE {
            return self.own[vertex as usize];
        }
        far
    }

    fn by_walks(&self) -> Option<Refusal> {
        let offers = |record: &usize| {
            let walk = Walk::read(self.tables.walks, *record);
            let far = self.far(walk.to);
            far != NONE && self.too_little(walk.from, self.walk_offer(walk, far))
        };
        let place = (0..self.walks).find(offers)?;
        Some(Refusal::at(28, place))
    }

    fn by_hops(&self) -> Option<Refusal> {
        let offers = |hop: &usize| {
            let hop = hops::read(self.tables, *hop, self.fault);
            let far = self.far(hop.to);
            let offer = (far != NONE).then(|| self.hop_offer(hop, far)).flatten();
            offer.is_some_and(|offer| self.too_little(hop.from, offer))
        };
        let hop = (0..self.hops).find(offers)?;
        match self.fault.is(Mutant::BoughtHopPlace) {
            true => Some(Refusal::at(28, hop)),
            false => Some(Refusal::at(28, self.walks + hop)),
        }
    }
}

/// The ends of the query's road: "from", and "to" where a twin leads back from
/// there or the place is that vertex.
fn seeds<F: Fault>(tables: Tables, query: Query, fault: F) -> [Option<(u32, u32)>; 2] {
    let road = Walk::read(tables.walks, query.record as usize);
    let lights = waits::seeds(tables, road, query, fault);
    let back = road.length - query.offset;
    let reached = road.twin != NONE || back == 0;
    [
        Some((road.from, query.offset + lights.own)),
        reached.then_some((road.to, back + lights.twin)),
    ]
}
