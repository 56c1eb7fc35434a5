//! The parts of walk records, in the order in which they are found.

use super::check::judge_parts;
use super::list::{bad_entry, entries};
use super::search::walks_into;
use super::waits;
use crate::mutant::{Fault, Mutant};
use crate::records::{Part, PartsAnswer, Query, Refusal, Tables, Walk, NONE, PART};

/// The parts of step 0, then those of each entry of the list in turn.
pub fn parts<F: Fault>(
    tables: Tables,
    query: Query,
    list: &[u8],
    buffer: &mut [u8],
    fault: F,
) -> PartsAnswer {
    if let Some(refusal) = judge_parts(tables, query, list.len(), buffer.len(), fault) {
        if fault.is(Mutant::RefusalZeroes) {
            buffer.fill(0);
        }
        return PartsAnswer::refused(refusal);
    }
    let late = fault.is(Mutant::ListAfterRoom);
    if let Some(refusal) = bad_entry(tables, query, list, fault).filter(|_| !late) {
        if fault.is(Mutant::ListZeroes) {
            buffer.fill(0);
        }
        return PartsAnswer::refused(refusal);
    }
    let mut parts = Parts::new(tables, query, buffer, fault);
    if let Some(step) = parts.write(list) {
        return parts.lacking(step);
    }
    match bad_entry(tables, query, list, fault).filter(|_| late) {
        Some(refusal) => PartsAnswer::refused(refusal),
        None => parts.answer(),
    }
}

/// What is written so far, and what it takes to write more.
pub struct Parts<'a, F> {
    tables: Tables<'a>,
    query: Query,
    road: Walk,
    /// The duration in ticks.
    window: u32,
    fault: F,
    buffer: &'a mut [u8],
    pub count: usize,
}

impl<'a, F: Fault> Parts<'a, F> {
    pub fn new(tables: Tables<'a>, query: Query, buffer: &'a mut [u8], fault: F) -> Self {
        Parts {
            tables,
            query,
            road: Walk::read(tables.walks, query.record as usize),
            window: query.duration * query.speed,
            fault,
            buffer,
            count: 0,
        }
    }

    /// All parts of a list; answers the first step that lacks room.
    fn write(&mut self, list: &[u8]) -> Option<usize> {
        let fault = self.fault;
        if !fault.is(Mutant::PartsNoStart) {
            self.start();
        }
        if self.lack() {
            return Some(usize::from(fault.is(Mutant::PartsStartFirst)));
        }
        let entries = entries(self.tables, self.query, list, fault);
        let last = entries.len();
        for (position, entry) in entries.iter().enumerate() {
            for record in walks_into(self.tables, entry.vertex) {
                let walk = Walk::read(self.tables.walks, record);
                let before = || entries[..position].iter().any(|e| e.vertex == walk.from);
                if fault.is(Mutant::PartUnsettled) && before() {
                    continue;
                }
                self.arriving(record as u32, walk, entry.distance);
            }
            if self.lack() {
                let first = usize::from(!fault.is(Mutant::PartsStepOff));
                let end = fault.is(Mutant::PartsLackEnd);
                return Some(if end { last } else { position + first });
            }
        }
        None
    }

    /// Step 0: on e up to o, then on the twin up to length less o.
    pub fn start(&mut self) {
        let (road, o) = (self.road, self.query.offset);
        let back = if self.fault.is(Mutant::PartTwinOffset) {
            o
        } else {
            road.length - o
        };
        let lights = waits::first_parts(self.tables, road, self.query, self.fault);
        let mut rows = [Some((self.query.record, o, lights.own)), None];
        if road.twin != NONE || self.fault.is(Mutant::PartsAlways) {
            rows[1] = Some((road.twin, back, lights.twin));
        }
        if self.fault.is(Mutant::PartTwinFirst) {
            rows.swap(0, 1);
        }
        for (record, end, wait) in rows.into_iter().flatten() {
            // Where nothing is left the part is a point, and left out.
            let rest = self.window.saturating_sub(wait);
            self.part(record, end.saturating_sub(rest), end);
        }
    }

    /// The end of a walk that arrives at a vertex, as much of it as the time
    /// left there allows.
    #[inline]
    pub fn arriving(&mut self, record: u32, walk: Walk, distance: u32) {
        // Never below zero, but with a mutant that lists beyond the window.
        let left = self.window.saturating_sub(distance);
        let wait = waits::at_vertex(walk, self.query, self.fault);
        let short = left < wait && self.fault.is(Mutant::PartWaitAll);
        let left = if short {
            left
        } else {
            left.saturating_sub(wait)
        };
        let mut start = walk.length.saturating_sub(left);
        let mut end = walk.length;
        if self.fault.is(Mutant::PartFar) {
            start = left.min(walk.length);
        }
        if self.fault.is(Mutant::PartOtherEnd) {
            (start, end) = (0, left.min(walk.length));
        }
        if record == self.query.record && !self.fault.is(Mutant::ClipNone) {
            start = start.max(self.query.offset);
        }
        let beside = walk.from == self.road.from && walk.to == self.road.to;
        if beside && self.fault.is(Mutant::ClipParallel) {
            start = start.max(self.query.offset);
        }
        if record == self.road.twin && !self.fault.is(Mutant::ClipTwin) {
            start = start.max(self.road.length - self.query.offset);
        }
        self.part(record, start, end);
    }

    /// Writes a part behind the others; without room it is only counted, since
    /// room is judged when the step is done.
    fn part(&mut self, record: u32, start: u32, end: u32) {
        if start >= end && !self.fault.is(Mutant::PartEmpty) {
            return;
        }
        if self.fault.is(Mutant::PartOnce) && self.has_part(record) {
            return;
        }
        let part = Part { record, start, end };
        if let Some(slot) = self.buffer.chunks_exact_mut(PART).nth(self.count) {
            slot.copy_from_slice(&part.bytes());
        }
        self.count += 1;
    }

    fn has_part(&self, record: u32) -> bool {
        let room = self.buffer.len() / PART;
        let mut written = 0..self.count.min(room);
        written.any(|i| Part::read(self.buffer, i).record == record)
    }

    /// Whether more parts are found than there is room for.
    pub fn lack(&self) -> bool {
        let mut slots = self.buffer.len() / PART;
        slots += usize::from(self.fault.is(Mutant::PartRoomLoose));
        slots -= usize::from(self.fault.is(Mutant::PartRoomTight)).min(slots);
        self.count > slots
    }

    fn lacking(self, step: usize) -> PartsAnswer {
        if !self.fault.is(Mutant::PartsKept) {
            self.buffer.fill(0);
        }
        let told = self.fault.is(Mutant::PartsCounts);
        PartsAnswer {
            parts: if told { self.count as u32 } else { 0 },
            ..PartsAnswer::refused(Refusal::at(10, step))
        }
    }

    fn answer(self) -> PartsAnswer {
        let parts = self.count as u32;
        self.close();
        PartsAnswer {
            parts,
            ..PartsAnswer::default()
        }
    }

    /// Zeros behind the parts.
    pub fn close(self) {
        let tail = self.buffer.get_mut(self.count * PART..);
        if let Some(tail) = tail.filter(|_| !self.fault.is(Mutant::TailKept)) {
            tail.fill(0);
        }
    }
}
