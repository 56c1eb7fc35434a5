//! A bought list, judged as the rules say what a right one is: four statements,
//! each about one entry or about one seed or record.

use std::collections::BTreeMap;

use super::check::{least, up_to_query, Given};
use super::model::Model;
use crate::records::{Listed, Query, Tables};

/// The places of the two seeds, that of "from" and that of "to".
const SEEDS: [u64; 2] = [0xffff_fffe, 0xffff_ffff];

pub fn judged(tables: Tables, query: Query, list: &[u8]) -> Option<Given> {
    up_to_query(tables, query, &[(4, list.len(), 12)])
        .or_else(|| Bought::new(tables, query, list).wrong())
}

struct Bought {
    model: Model,
    entries: Vec<Listed>,
    /// Where each vertex stands first.
    first: BTreeMap<u32, usize>,
}

impl Bought {
    fn new(tables: Tables, query: Query, list: &[u8]) -> Self {
        let entries: Vec<Listed> = (0..list.len() / 12)
            .map(|i| Listed::read(list, i))
            .collect();
        let mut first = BTreeMap::new();
        for (i, entry) in entries.iter().enumerate() {
            first.entry(entry.vertex).or_insert(i);
        }
        Bought {
            model: Model::plain(tables, query),
            entries,
            first,
        }
    }

    fn wrong(&self) -> Option<Given> {
        let entries = self.entries.len();
        let vertex = |i: usize| self.entries[i].vertex;
        let exists = |i: usize| (vertex(i) as usize) < self.model.vertices;
        least(25, entries, |i| !exists(i) || self.first[&vertex(i)] < i)
            .or_else(|| least(26, entries, |i| self.distance(i) > self.model.window()))
            .or_else(|| least(27, entries, |i| !self.reasoned(i)))
            .or_else(|| self.offered_by_seed())
            .or_else(|| least(28, self.records(), |r| self.offered_by_record(r)))
    }

    fn distance(&self, entry: usize) -> i64 {
        i64::from(self.entries[entry].distance)
    }

    fn records(&self) -> usize {
        self.model.walks.len() + self.model.hops.len()
    }

    /// The ends of a record, walks numbered first.
    fn ends(&self, record: usize) -> (u32, u32) {
        match self.model.walks.get(record) {
            Some(walk) => (walk.from, walk.to),
            None => {
                let hop = self.model.hops[record - self.model.walks.len()];
                (hop.from, hop.to)
            }
        }
    }

    /// What a record offers if its "to" is so far.
    fn offer(&self, record: usize, far: i64) -> Option<i64> {
        match self.model.walks.get(record) {
            Some(walk) => Some(self.model.walk_offer(walk, far)),
            None => {
                let hop = self.model.hops[record - self.model.walks.len()];
                self.model.hop_offer(&hop, far)
            }
        }
    }

    /// The record leads from the entry's vertex to that of an earlier entry and
    /// offers this distance from the one listed there; or the vertex is a seed
    /// of this distance.
    fn reasoned(&self, i: usize) -> bool {
        let Listed { vertex, record, .. } = self.entries[i];
        if record == 0xffff_ffff {
            let own = (vertex as usize, self.distance(i));
            return self.model.seeds().contains(&own);
        }
        if record as usize >= self.records() {
            return false;
        }
        let (from, to) = self.ends(record as usize);
        let earlier = self.first.get(&to).filter(|&&far| far < i);
        let offer = earlier.and_then(|&far| self.offer(record as usize, self.distance(far)));
        from == vertex && offer == Some(self.distance(i))
    }

    /// Less than is listed of the vertex, or at most D where it is not.
    fn too_little(&self, vertex: u32, offer: i64) -> bool {
        match self.first.get(&vertex) {
            Some(&entry) => offer < self.distance(entry),
            None => offer <= self.model.window(),
        }
    }

    fn offered_by_seed(&self) -> Option<Given> {
        let seeds = self.model.seeds();
        let mut placed = seeds.iter().zip(SEEDS);
        let found = placed.find(|((vertex, seed), _)| self.too_little(*vertex as u32, *seed));
        found.map(|(_, place)| (28, place))
    }

    fn offered_by_record(&self, record: usize) -> bool {
        let (from, to) = self.ends(record);
        let far = self.first.get(&to).map(|&entry| self.distance(entry));
        let offer = far.and_then(|far| self.offer(record, far));
        offer.is_some_and(|offer| self.too_little(from, offer))
    }
}

/// Whether a list has just the vertices within D at their distances, by the
/// journeys: what has to hold of every list that passes.
pub fn is_settled(tables: Tables, query: Query, list: &[u8]) -> bool {
    let model = Model::new(tables, query);
    let own = model.order.iter();
    let own: BTreeMap<u32, Option<i64>> = own.map(|&v| (v as u32, model.distance[v])).collect();
    let entries = (0..list.len() / 12).map(|i| Listed::read(list, i));
    let listed: Vec<(u32, Option<i64>)> = entries
        .map(|entry| (entry.vertex, Some(i64::from(entry.distance))))
        .collect();
    listed.len() == own.len() && listed.into_iter().collect::<BTreeMap<_, _>>() == own
}
