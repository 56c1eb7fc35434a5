//! The same as it is first written down: a heap, the standard library's hash maps and sets with the hash that they come with, and as much memory as it takes.
//! It is the program beside which the time of the mode is judged; `quick`, which has arrays in place of the maps, is the stricter one.
//! Refusals are those of `quick`, the search is its own.

use std::cmp::Reverse;
use std::collections::{BinaryHeap, HashMap, HashSet};
use std::ops::Range;

use outside::records::{trip, Answer, Hop, Query, Refusal, Settled, Tables, Vertex, Walk, ANSWER, NONE, SETTLED, TRIP_HOP, VERTEX, WALK};

use crate::call::{Lent, Program};
use crate::quick::{hop_count, refused, write};
use crate::wrong::Sound;

pub struct Mapped;

struct Search<'a> {
    tables: Tables<'a>,
    query: Query,
    boarding: u32,
    known: HashMap<u32, u32>,
    settled: HashSet<u32>,
    queue: BinaryHeap<Reverse<(u32, u32)>>,
    list: Vec<Settled>,
    /// The hops that are on board in time.
    aboard: HashSet<u32>,
    /// By vertex and trip the hops that arrive there, the latest first, less those after which one was found to stay on.
    arriving: HashMap<(u32, u32), Vec<(i32, u32)>>,
    /// The vertices whose hops were put there.
    sorted: HashSet<u32>,
    /// Hops on board whose vehicle may have brought one there.
    pending: Vec<u32>,
}

impl<'a> Search<'a> {
    fn new(tables: Tables<'a>, query: Query, boarding: u32) -> Self {
        let mut search = Search {
            tables,
            query,
            boarding,
            known: HashMap::new(),
            settled: HashSet::new(),
            queue: BinaryHeap::new(),
            list: Vec::new(),
            aboard: HashSet::new(),
            arriving: HashMap::new(),
            sorted: HashSet::new(),
            pending: Vec::new(),
        };
        search.seeds();
        search
    }

    fn walk(&self, number: u32) -> Walk {
        Walk::read(self.tables.walks, number as usize)
    }

    fn hop(&self, number: u32) -> Hop {
        Hop::read(self.tables.hops, self.tables.hop_size as usize, number as usize)
    }

    /// The vehicle of a hop, where it is known.
    fn trip(&self, number: u32) -> Option<u32> {
        let known = self.tables.hop_size as usize == TRIP_HOP;
        known.then(|| trip(self.tables.hops, number as usize)).filter(|&trip| trip != 0)
    }

    /// The records that arrive at a vertex: from its first one, which is a field of it, to that of the next vertex.
    fn run(&self, vertex: u32, first: fn(Vertex) -> u32, count: usize) -> Range<u32> {
        let of = |v: usize| match v * VERTEX < self.tables.vertices.len() {
            true => first(Vertex::read(self.tables.vertices, v)),
            false => count as u32,
        };
        of(vertex as usize)..of(vertex as usize + 1)
    }

    fn walks_into(&self, vertex: u32) -> Range<u32> {
        self.run(vertex, |vertex| vertex.first_walk, self.tables.walks.len() / WALK)
    }

    fn hops_into(&self, vertex: u32) -> Range<u32> {
        self.run(vertex, |vertex| vertex.first_hop, hop_count(self.tables))
    }

    fn walk_ticks(&self, walk: Walk) -> u32 {
        walk.length + walk.wait * self.query.speed
    }

    /// The ticks from a second to T.
    fn before(&self, second: i32) -> i64 {
        i64::from(self.query.arrival - second) * i64::from(self.query.speed)
    }

    /// From the place straight to the ends of its road. Offset "length" lies past the wait.
    fn seeds(&mut self) {
        let (e, o) = (self.walk(self.query.record), self.query.offset);
        if o == e.length {
            self.offer(e.to, 0);
            self.offer(e.from, self.walk_ticks(e));
            return;
        }
        self.offer(e.from, o);
        if e.twin != NONE {
            self.offer(e.to, if o == 0 { self.walk_ticks(self.walk(e.twin)) } else { e.length - o });
        }
    }

    fn offer(&mut self, vertex: u32, ticks: u32) {
        let less = self.known.get(&vertex).is_none_or(|&known| ticks < known);
        if less && ticks <= self.query.duration * self.query.speed {
            self.known.insert(vertex, ticks);
            self.queue.push(Reverse((ticks, vertex)));
        }
    }

    /// The next to be settled, if any is left within D; it stays in the heap.
    fn next(&mut self) -> Option<(u32, u32)> {
        while let Some(&Reverse((distance, vertex))) = self.queue.peek() {
            if !self.settled.contains(&vertex) && self.known[&vertex] == distance {
                return Some((distance, vertex));
            }
            self.queue.pop();
        }
        None
    }

    /// What a ride gives that begins with this hop: the boarding time is stood before it leaves.
    fn ride(&mut self, hop: Hop) {
        if !self.settled.contains(&hop.from) {
            let ticks = self.before(hop.departure) + i64::from(self.boarding) * i64::from(self.query.speed);
            self.offer(hop.from, ticks as u32);
        }
    }

    fn settle(&mut self, distance: u32, vertex: u32) {
        self.settled.insert(vertex);
        self.list.push(Settled { vertex, distance });
        for number in self.walks_into(vertex) {
            let walk = self.walk(number);
            if !self.settled.contains(&walk.from) {
                self.offer(walk.from, distance + self.walk_ticks(walk));
            }
        }
        for number in self.hops_into(vertex) {
            let hop = self.hop(number);
            let mut aboard = self.aboard.contains(&number);
            if !aboard && self.before(hop.arrival) >= i64::from(distance) {
                aboard = true;
                self.aboard.insert(number);
                self.pending.push(number);
            }
            if aboard {
                self.ride(hop);
            }
        }
        self.stay_on();
    }

    /// Puts the hops that arrive at a vertex by their trips, the latest first, once they are asked for.
    fn sort(&mut self, vertex: u32) {
        if !self.sorted.insert(vertex) {
            return;
        }
        let mut hops: Vec<(i32, u32)> = self.hops_into(vertex).map(|number| (self.hop(number).arrival, number)).collect();
        hops.sort_unstable_by_key(|&hop| Reverse(hop));
        for hop in hops {
            if let Some(trip) = self.trip(hop.1) {
                self.arriving.entry((vertex, trip)).or_default().push(hop);
            }
        }
    }

    /// Takes those hops of a trip to a vertex that are there by a second.
    fn staying(&mut self, vertex: u32, trip: u32, departure: i32) -> Vec<(i32, u32)> {
        self.sort(vertex);
        let Some(hops) = self.arriving.get_mut(&(vertex, trip)) else {
            return Vec::new();
        };
        let there = hops.iter().rev().take_while(|hop| hop.0 <= departure).count();
        hops.split_off(hops.len() - there)
    }

    /// Whoever comes in the vehicle of a hop on board to where that begins, and not after it leaves, can stay on.
    fn stay_on(&mut self) {
        while let Some(number) = self.pending.pop() {
            let Some(trip) = self.trip(number) else {
                continue;
            };
            let next = self.hop(number);
            for (_, before) in self.staying(next.from, trip, next.departure) {
                if self.aboard.insert(before) {
                    self.pending.push(before);
                    if self.settled.contains(&next.from) {
                        self.ride(self.hop(before));
                    }
                }
            }
        }
    }

    /// Settles up to the limit, and tells whether nothing is left; or the step that has no room.
    fn search(&mut self, limit: u32, room: usize) -> Result<bool, usize> {
        while let Some((distance, vertex)) = self.next() {
            let step = self.list.len() + 1;
            if step > limit as usize {
                return Ok(false);
            }
            if step > room {
                return Err(step);
            }
            self.settle(distance, vertex);
        }
        Ok(true)
    }
}

fn ran(tables: Tables, query: Query, boarding: u32, limit: u32, lent: Lent) -> Answer {
    if let Some(refusal) = refused(tables, query, boarding, &lent, Sound) {
        return Answer::refused(refusal);
    }
    let mut search = Search::new(tables, query, boarding);
    let ended = search.search(limit, lent.settled.len() / SETTLED);
    lent.scratch.fill(0);
    match ended {
        Ok(finished) => {
            let count = search.list.len();
            write(lent.settled, &search.list);
            lent.settled[SETTLED * count..].fill(0);
            Answer { settled: count as u32, finished: finished.into(), ..Answer::default() }
        }
        Err(step) => {
            lent.settled.fill(0);
            Answer::refused(Refusal::at(9, step))
        }
    }
}

impl Program for Mapped {
    fn run(&self, tables: Tables, query: Query, boarding: u32, limit: u32, lent: Lent, answer: &mut [u8]) -> u32 {
        if answer.len() == ANSWER {
            answer.copy_from_slice(&ran(tables, query, boarding, limit, lent).bytes());
        }
        (answer.len() != ANSWER).into()
    }
}
