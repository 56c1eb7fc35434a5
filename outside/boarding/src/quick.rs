//! The same with a heap, arrays and as much memory as it takes: the judge of the library, and the rival for speed.
//!
//! Being on board of a hop in time is a yes or no of the hop: one can leave at its end in time, or one stays on with a hop of its trip that leaves there
//! not before it arrives and is on board in time. Each hop is marked once. A mark counts as an offer when the end of its hop is settled.

use std::cmp::Reverse;
use std::collections::BinaryHeap;
use std::ops::Range;

use outside::fast::{asked, judge_lengths, judge_records};
use outside::mutant;
use outside::records::{word, Answer, Hop, Query, Refusal, Settled, Tables, Vertex, Walk, ANSWER, NONE, SETTLED, TRIP_HOP, VERTEX, WALK};

use crate::call::{Lent, Program};
use crate::wrong::{Fault, Wrong};

/// The quick program, or a wrong version of it.
pub struct Quick<F>(pub F);

const MOST_BOARDING: u32 = 600;

/// A hop by what it is looked for: trip, arrival, record.
type Arriving = (u32, i32, u32);

struct Search<'a, F> {
    tables: Tables<'a>,
    query: Query,
    boarding: u32,
    fault: F,
    window: u32,
    known: Vec<u32>,
    settled: Vec<bool>,
    queue: BinaryHeap<Reverse<(u32, u32)>>,
    list: Vec<Settled>,
    /// By hop: on board in time.
    aboard: Vec<bool>,
    /// By vertex: whether its arriving hops are sorted below.
    sorted: Vec<bool>,
    /// The hops in the order of their table, but those that arrive at one vertex by trip and arrival, once that is asked for.
    by_trip: Vec<Arriving>,
    /// Hops that were just marked, and whose vehicle may have brought one there.
    marked: Vec<u32>,
    /// How many hops a ride has; only wrong versions ask.
    hops_of: Vec<u32>,
}

pub(crate) fn hop_count(tables: Tables) -> usize {
    tables.hops.len() / tables.hop_size as usize
}

impl<'a, F: Fault> Search<'a, F> {
    fn new(tables: Tables<'a>, query: Query, boarding: u32, fault: F) -> Self {
        let (vertices, hops) = (tables.vertices.len() / VERTEX, hop_count(tables));
        let mut search = Search {
            tables,
            query,
            boarding,
            fault,
            window: query.duration * query.speed,
            known: vec![NONE; vertices],
            settled: vec![false; vertices],
            queue: BinaryHeap::new(),
            list: Vec::new(),
            aboard: vec![false; hops],
            sorted: vec![false; vertices],
            by_trip: vec![(0, 0, 0); hops],
            marked: Vec::new(),
            hops_of: vec![1; hops],
        };
        search.seeds();
        if fault.is(Wrong::CircleStarts) {
            search.start_circles();
        }
        search
    }

    fn hop(&self, number: usize) -> Hop {
        Hop::read(self.tables.hops, self.tables.hop_size as usize, number)
    }

    /// What vehicle a hop belongs to; none where that is unknown.
    fn trip(&self, number: usize) -> Option<u32> {
        let fault = self.fault;
        if fault.is(Wrong::StayAnyTrip) {
            return Some(1);
        }
        if self.tables.hop_size as usize != TRIP_HOP {
            return fault.is(Wrong::StaySixteen).then_some(1);
        }
        match word(self.tables.hops, number * TRIP_HOP + 16) {
            0 => fault.is(Wrong::StayUnknown).then_some(0),
            trip if fault.is(Wrong::StayLowTrip) => Some(trip & 0xffff),
            trip => Some(trip),
        }
    }

    /// The arriving hops of a vertex.
    fn arriving(&self, vertex: u32) -> Range<usize> {
        let first = |v: usize| match v * VERTEX < self.tables.vertices.len() {
            true => Vertex::read(self.tables.vertices, v).first_hop as usize,
            false => hop_count(self.tables),
        };
        first(vertex as usize)..first(vertex as usize + 1)
    }

    fn arriving_walks(&self, vertex: u32) -> Range<usize> {
        let first = |v: usize| match v * VERTEX < self.tables.vertices.len() {
            true => Vertex::read(self.tables.vertices, v).first_walk as usize,
            false => self.tables.walks.len() / WALK,
        };
        first(vertex as usize)..first(vertex as usize + 1)
    }

    /// From the place straight to the ends of its road.
    fn seeds(&mut self) {
        let (fault, speed, o) = (self.fault, self.query.speed, self.query.offset);
        let e = Walk::read(self.tables.walks, self.query.record as usize);
        let at_end = o == e.length;
        let waits = (at_end && !fault.is(Wrong::SeedEndFree)) || (!at_end && fault.is(Wrong::SeedInnerWait));
        self.offer(e.from, o + if waits { e.wait * speed } else { 0 });
        match e.twin {
            NONE if at_end && !fault.is(Wrong::SeedOneWay) => self.offer(e.to, 0),
            NONE => {}
            twin if o == 0 => self.offer(e.to, e.length + Walk::read(self.tables.walks, twin as usize).wait * speed),
            _ => self.offer(e.to, e.length - o),
        }
    }

    fn offer(&mut self, vertex: u32, ticks: u32) {
        let late = ticks > self.window || (ticks == self.window && self.fault.is(Wrong::WindowStrict));
        if !late && ticks < self.known[vertex as usize] {
            self.known[vertex as usize] = ticks;
            self.queue.push(Reverse((ticks, vertex)));
        }
    }

    /// The ticks from a second to T.
    fn before(&self, second: i32) -> i64 {
        if self.fault.is(Wrong::HopUnsigned) && second < 0 {
            return -1;
        }
        i64::from(self.query.arrival - second) * i64::from(self.query.speed)
    }

    /// Whether who leaves a vehicle at this second still comes from there in time.
    fn in_time(&self, number: usize, distance: u32) -> bool {
        let (fault, speed) = (self.fault, i64::from(self.query.speed));
        let (hop, mut far) = (self.hop(number), i64::from(distance));
        let time = i64::from(self.boarding) * speed;
        if fault.is(Wrong::ChangeFree) && self.leaves(hop.to, far - time) {
            far -= time;
        }
        if fault.is(Wrong::BoardingChange) && self.leaves(hop.to, far) {
            far += time;
        }
        let left = self.before(hop.arrival) - if fault.is(Wrong::BoardingAlight) { time } else { 0 };
        if fault.is(Wrong::StayToLast) && self.goes_on(number) {
            return false;
        }
        match fault {
            _ if fault.is(Wrong::HopStrict) => left > far,
            _ if fault.is(Wrong::HopFloor) => left >= 0 && left / speed >= far / speed,
            _ => left >= far,
        }
    }

    /// Only for wrong versions: some hop on board leaves a vertex so long before T.
    fn leaves(&self, vertex: u32, ticks: i64) -> bool {
        (0..self.aboard.len()).any(|i| self.aboard[i] && self.hop(i).from == vertex && self.before(self.hop(i).departure) == ticks)
    }

    /// Only for a wrong version: the vehicle goes on from the end of this hop.
    fn goes_on(&self, number: usize) -> bool {
        let (own, trip) = (self.hop(number), self.trip(number));
        trip.is_some() && (0..self.aboard.len()).any(|i| self.trip(i) == trip && self.hop(i).from == own.to && self.hop(i).departure >= own.arrival)
    }

    /// Only for a wrong version: who goes round at one second counts as in time.
    fn start_circles(&mut self) {
        for i in 0..self.aboard.len() {
            for k in 0..i {
                let (one, other) = (self.hop(i), self.hop(k));
                let turns = one.from == other.to && one.to == other.from && [one.arrival, other.departure, other.arrival] == [one.departure; 3];
                if turns && self.trip(i).is_some() && self.trip(i) == self.trip(k) && self.before(one.arrival) >= 0 {
                    (self.aboard[i], self.aboard[k]) = (true, true);
                }
            }
        }
    }

    /// What a ride gives that begins with this hop.
    fn ride_offer(&self, number: usize, distance: u32) -> u32 {
        let (fault, hop) = (self.fault, self.hop(number));
        let speed = i64::from(self.query.speed);
        let boarding = i64::from(self.boarding)
            * match fault {
                _ if fault.is(Wrong::BoardingNever) || fault.is(Wrong::BoardingAlight) || fault.is(Wrong::BoardingChange) => 0,
                _ if fault.is(Wrong::BoardingTicks) => 1,
                _ if fault.is(Wrong::BoardingEachHop) => speed * i64::from(self.hops_of[number]),
                _ if fault.is(Wrong::BoardingStayFree) && self.hops_of[number] > 1 => 0,
                _ => speed,
            };
        let ticks = match fault.is(Wrong::HopRides) {
            true => i64::from(distance) + i64::from(hop.arrival - hop.departure) * speed,
            false => self.before(hop.departure),
        };
        (ticks + boarding) as u32
    }

    fn release(&mut self, number: usize, distance: u32) {
        let from = self.hop(number).from;
        if !self.settled[from as usize] {
            let offer = self.ride_offer(number, distance);
            self.offer(from, offer);
        }
    }

    fn mark(&mut self, number: usize) {
        self.aboard[number] = true;
        self.marked.push(number as u32);
    }

    /// The arriving hops of a vertex, sorted. An unknown trip is that of nobody who stays on, and stands as 0.
    fn sorted_run(&mut self, vertex: u32) -> Range<usize> {
        let run = self.arriving(vertex);
        if !std::mem::replace(&mut self.sorted[vertex as usize], true) {
            for number in run.clone() {
                self.by_trip[number] = (self.trip(number).unwrap_or(0), self.hop(number).arrival, number as u32);
            }
            self.by_trip[run.clone()].sort_unstable();
        }
        run
    }

    /// Whoever comes in the vehicle of a marked hop to where that begins can stay on. Those of a trip that are on board are the first by arrival.
    fn stay_on(&mut self, distance: u32) {
        while let Some(number) = self.marked.pop() {
            let number = number as usize;
            if self.fault.is(Wrong::ReleaseEarly) {
                self.release(number, distance);
            }
            let Some(trip) = self.trip(number) else {
                continue;
            };
            let hop = self.hop(number);
            let run = self.sorted_run(hop.from);
            if self.altered() {
                self.stay_otherwise(number, trip, run, distance);
                continue;
            }
            let mut end = run.start + self.by_trip[run.clone()].partition_point(|&(own, arrival, _)| (own, arrival) <= (trip, hop.departure));
            while end > run.start {
                end -= 1;
                let (own, _, before) = self.by_trip[end];
                if own != trip || self.aboard[before as usize] {
                    break;
                }
                self.board(before as usize, number, distance);
            }
        }
    }

    /// Marks a hop after which one stays on with another.
    fn board(&mut self, before: usize, next: usize, distance: u32) {
        self.mark(before);
        self.hops_of[before] = self.hops_of[next] + 1;
        if self.settled[self.hop(before).to as usize] {
            self.release(before, distance);
        }
    }

    /// Whether staying on is what a wrong version alters.
    fn altered(&self) -> bool {
        let altered = [
            Wrong::StayInTime,
            Wrong::BoardingStaying,
            Wrong::StayStrict,
            Wrong::StayAnyHour,
            Wrong::StayRising,
            Wrong::StayFalling,
            Wrong::StayEarliest,
            Wrong::StayOnce,
            Wrong::StayLatest,
        ];
        altered.iter().any(|&wrong| self.fault.is(wrong))
    }

    /// As wrong versions stay on.
    fn stay_otherwise(&mut self, next: usize, trip: u32, run: Range<usize>, distance: u32) {
        let waiting: Vec<(i32, u32)> = self.by_trip[run].iter().filter(|own| own.0 == trip).map(|&(_, arrival, record)| (arrival, record)).collect();
        let (fault, departure) = (self.fault, self.hop(next).departure);
        let earliest = |search: &Self, arrival: i32| {
            let (own, trip) = (search.hop(next), search.trip(next));
            let other = |i: usize| search.trip(i) == trip && search.hop(i).from == own.from && (arrival..departure).contains(&search.hop(i).departure);
            !(0..search.aboard.len()).any(other)
        };
        for &(arrival, before) in &waiting {
            let fits = arrival <= departure;
            let fits = match fault {
                _ if fault.is(Wrong::StayInTime) => false,
                _ if fault.is(Wrong::BoardingStaying) => arrival + self.boarding as i32 <= departure,
                _ if fault.is(Wrong::StayStrict) => arrival < departure,
                _ if fault.is(Wrong::StayAnyHour) => true,
                _ if fault.is(Wrong::StayRising) => fits && (before as usize) < next,
                _ if fault.is(Wrong::StayFalling) => fits && before as usize > next,
                _ if fault.is(Wrong::StayEarliest) => fits && earliest(self, arrival),
                _ if fault.is(Wrong::StayOnce) => fits && self.hops_of[next] < 2,
                _ => fits && !waiting.iter().any(|&(other, _)| other <= departure && other > arrival),
            };
            if fits && !self.aboard[before as usize] {
                self.board(before as usize, next, distance);
            }
        }
    }

    /// The next to be settled, if any is left within D.
    fn next(&mut self) -> Option<(u32, u32)> {
        while let Some(&Reverse((distance, vertex))) = self.queue.peek() {
            if !self.settled[vertex as usize] && self.known[vertex as usize] == distance {
                return Some((distance, vertex));
            }
            self.queue.pop();
        }
        None
    }

    fn settle(&mut self, distance: u32, vertex: u32) {
        self.settled[vertex as usize] = true;
        self.list.push(Settled { vertex, distance });
        for number in self.arriving_walks(vertex) {
            let walk = Walk::read(self.tables.walks, number);
            if !self.settled[walk.from as usize] {
                let wait = if self.fault.is(Wrong::WaitFree) { 0 } else { walk.wait * self.query.speed };
                self.offer(walk.from, distance + walk.length + wait);
            }
        }
        for number in self.arriving(vertex) {
            if !self.aboard[number] && self.in_time(number, distance) {
                self.mark(number);
            }
            if self.aboard[number] {
                self.release(number, distance);
            }
        }
        self.stay_on(distance);
    }

    /// Settles up to the limit, and tells whether nothing is left; or the step that has no room.
    fn search(&mut self, limit: u32, room: usize) -> Result<bool, usize> {
        let fault = self.fault;
        let limit = match limit {
            0 if fault.is(Wrong::LimitZero) => NONE,
            limit if fault.is(Wrong::LimitSigned) && limit >= 1 << 31 => 0,
            limit => limit,
        };
        let room = room.saturating_sub(fault.is(Wrong::RoomTight).into());
        while let Some((distance, vertex)) = self.next() {
            let step = self.list.len() + 1;
            if step > limit as usize && !(fault.is(Wrong::RoomBeyond) && step > room) {
                return Ok(false);
            }
            if step > room {
                return Err(step);
            }
            self.settle(distance, vertex);
        }
        Ok(!(fault.is(Wrong::FinishedLate) && self.list.len() >= limit as usize))
    }
}

/// Whether the scratch is too short.
fn short<F: Fault>(tables: Tables, scratch: usize, fault: F) -> bool {
    let hops = match fault.is(Wrong::ScratchCounted) {
        true => tables.hops.len() / 16,
        false => hop_count(tables),
    };
    match fault {
        _ if fault.is(Wrong::ScratchThree) => scratch < 3 * hops,
        _ if fault.is(Wrong::ScratchExact) => scratch != 4 * hops,
        _ if fault.is(Wrong::ScratchWords) => scratch < 4 * hops || scratch % 4 != 0,
        _ if fault.is(Wrong::ScratchAlways) => scratch < 4 * hops || scratch == 0,
        _ => scratch < 4 * hops,
    }
}

/// 1 to 7 and 18.
pub(crate) fn refused<F: Fault>(tables: Tables, query: Query, boarding: u32, lent: &Lent, fault: F) -> Option<Refusal> {
    let room = [(4, lent.settled.len(), SETTLED)];
    let long = |lengths: &[(usize, usize, usize)]| judge_lengths(tables, lengths, mutant::Sound);
    let records = || judge_records(tables, mutant::Sound);
    let usual = || asked(tables, query, mutant::Sound);
    let boarded = || {
        let good = match fault {
            _ if fault.is(Wrong::BoardingStrict) => boarding < MOST_BOARDING,
            _ if fault.is(Wrong::BoardingLoose) => boarding <= MOST_BOARDING + 1,
            _ if fault.is(Wrong::BoardingSigned) => boarding as i32 <= MOST_BOARDING as i32,
            _ => boarding <= MOST_BOARDING,
        };
        (!good).then(|| Refusal::at(7, if fault.is(Wrong::BoardingPlace) { 4 } else { 5 }))
    };
    let scratch = || {
        let place = if fault.is(Wrong::ScratchPlace) { hop_count(tables) } else { 0 };
        (!fault.is(Wrong::ScratchLate) && short(tables, lent.scratch.len(), fault)).then(|| Refusal::at(18, place))
    };
    let judged = match fault {
        _ if fault.is(Wrong::SettledLate) => long(&[]).or_else(records).or_else(|| long(&room)),
        _ if fault.is(Wrong::SettledAny) => long(&[]).or_else(records),
        _ => long(&room).or_else(records),
    };
    judged.or_else(|| match fault {
        _ if fault.is(Wrong::BoardingFirst) => boarded().or_else(usual).or_else(scratch),
        _ if fault.is(Wrong::ScratchFirst) => scratch().or_else(usual).or_else(boarded),
        _ => usual().or_else(boarded).or_else(scratch),
    })
}

/// What a refusal leaves.
fn leave<F: Fault>(refusal: Refusal, list: &[Settled], lent: &mut Lent, fault: F) {
    let (settled, scratch) = match refusal.number {
        9 => (!fault.is(Wrong::RoomSettled), !fault.is(Wrong::RoomScratch)),
        18 => (fault.is(Wrong::ShortSettled), fault.is(Wrong::ShortScratch)),
        _ => (false, fault.is(Wrong::RefusedScratch)),
    };
    if settled {
        lent.settled.fill(0);
    }
    if scratch {
        lent.scratch.fill(0);
    }
    if fault.is(Wrong::RoomFront) && refusal.number == 9 {
        write(lent.settled, list);
    }
}

pub(crate) fn write(settled: &mut [u8], list: &[Settled]) {
    settled.chunks_exact_mut(SETTLED).zip(list).for_each(|(slot, entry)| slot.copy_from_slice(&entry.bytes()));
}

pub fn run<F: Fault>(tables: Tables, query: Query, boarding: u32, limit: u32, lent: &mut Lent, fault: F) -> Answer {
    if let Some(refusal) = refused(tables, query, boarding, lent, fault) {
        leave(refusal, &[], lent, fault);
        return Answer::refused(refusal);
    }
    // Those that wrong versions let pass are brought inside what is reckoned with.
    let boarding = if boarding as i32 >= 0 { boarding } else { 0 };
    let mut search = Search::new(tables, query, boarding, fault);
    let finished = match search.search(limit, lent.settled.len() / SETTLED) {
        Ok(finished) => finished,
        Err(step) => {
            let refusal = Refusal::at(9, step - usize::from(fault.is(Wrong::RoomStep)));
            leave(refusal, &search.list, lent, fault);
            return Answer::refused(refusal);
        }
    };
    if fault.is(Wrong::ScratchLate) && short(tables, lent.scratch.len(), fault) {
        return Answer::refused(Refusal::at(18, 0));
    }
    if fault.is(Wrong::OrderByNumber) {
        search.list.sort_by_key(|entry| (entry.distance, entry.vertex));
    }
    clear_scratch(tables, lent.scratch, fault);
    let count = search.list.len();
    if !fault.is(Wrong::TailKept) {
        lent.settled[SETTLED * count..].fill(0);
    }
    write(lent.settled, &search.list);
    let told = |wrong: Wrong| if fault.is(wrong) { count as u32 } else { 0 };
    let (parts, held) = (told(Wrong::PartCounted), told(Wrong::HeldCounted));
    Answer { settled: count as u32, parts, held, finished: finished.into(), ..Answer::default() }
}

fn clear_scratch<F: Fault>(tables: Tables, scratch: &mut [u8], fault: F) {
    let needed = 4 * hop_count(tables);
    match fault {
        _ if fault.is(Wrong::ScratchKept) => {}
        _ if fault.is(Wrong::ScratchFront) => scratch.iter_mut().take(needed).for_each(|byte| *byte = 0),
        _ if fault.is(Wrong::ScratchUsed) => {
            scratch.fill(0);
            scratch.chunks_exact_mut(4).take(needed / 4).enumerate().for_each(|(i, slot)| slot.copy_from_slice(&(i as u32).to_be_bytes()));
        }
        _ => scratch.fill(0),
    }
}

/// What a run of this query settles, all of it; for tables and query in order.
pub fn settled(tables: Tables, query: Query, boarding: u32) -> Vec<Settled> {
    let mut search = Search::new(tables, query, boarding, crate::wrong::Sound);
    let done = search.search(NONE, tables.vertices.len());
    debug_assert!(done.is_ok());
    search.list
}

impl<F: Fault> Program for Quick<F> {
    fn run(&self, tables: Tables, query: Query, boarding: u32, limit: u32, mut lent: Lent, answer: &mut [u8]) -> u32 {
        let fits = answer.len() == ANSWER || (self.0.is(Wrong::AnswerLoose) && answer.len() > ANSWER);
        if fits || self.0.is(Wrong::AnswerLate) {
            let six = run(tables, query, boarding, limit, &mut lent, self.0);
            if fits {
                answer[..ANSWER].copy_from_slice(&six.bytes());
            }
        }
        (!fits).into()
    }
}
