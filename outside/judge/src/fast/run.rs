//! A run: steps up to the limit, room after each of them, and the answer.

use super::check::{judge_one_run, judge_run};
use super::parts::Parts;
use super::search::Search;
use crate::mutant::{Fault, Mutant, Sound};
use crate::records::{Answer, Held, Lent, Query, Refusal, Tables, HELD, SETTLED};

/// Settled and held.
pub fn run<F: Fault>(
    tables: Tables,
    query: Query,
    limit: u32,
    lent: &mut Lent,
    fault: F,
) -> Answer {
    if let Some(refusal) = judge_run(tables, query, lent, fault) {
        if fault.is(Mutant::RefusalZeroes) {
            wipe(lent);
        }
        return Answer::refused(refusal);
    }
    searched(tables, query, limit, lent, fault)
}

/// The run behind its refusals 1 to 7.
pub fn searched<F: Fault>(
    tables: Tables,
    query: Query,
    limit: u32,
    lent: &mut Lent,
    fault: F,
) -> Answer {
    let mut search = Search::new(tables, query, lent, None, fault);
    let refused = search.advance(limit_read(limit, fault));
    let Some(refusal) = refused else {
        return search.answer(limit);
    };
    let settled = search.settled as u32;
    let own = fault.is(Mutant::RefusalOwn);
    match refusal.number {
        _ if fault.is(Mutant::RefusalKept) => {}
        8 if own => lent.held.fill(0),
        9 if own => lent.settled.fill(0),
        _ => wipe(lent),
    }
    let mut answer = Answer::refused(refusal);
    if fault.is(Mutant::RefusalCounts) {
        answer.settled = settled;
    }
    answer
}

/// The one run of RULES 11.7, which writes the parts as it goes: what a run
/// and the parts of its list are measured and held against.
pub fn one_run(
    tables: Tables,
    query: Query,
    limit: u32,
    lent: &mut Lent,
    parts: &mut [u8],
) -> Answer {
    if let Some(refusal) = judge_one_run(tables, query, lent, parts) {
        return Answer::refused(refusal);
    }
    let own = Parts::new(tables, query, parts, Sound);
    let mut search = Search::new(tables, query, lent, Some(own), Sound);
    let Some(refusal) = search.advance(limit) else {
        return search.answer(limit);
    };
    wipe(lent);
    parts.fill(0);
    Answer::refused(refusal)
}

fn limit_read<F: Fault>(limit: u32, fault: F) -> u32 {
    if fault.is(Mutant::LimitSigned) {
        return (limit as i32).max(0) as u32;
    }
    if fault.is(Mutant::LimitZero) && limit == 0 {
        return u32::MAX;
    }
    limit.saturating_add(u32::from(fault.is(Mutant::LimitLate)))
}

pub fn wipe(lent: &mut Lent) {
    lent.held.fill(0);
    lent.settled.fill(0);
}

impl<F: Fault> Search<'_, '_, F> {
    /// Takes steps up to the limit; answers the first lack of room.
    fn advance(&mut self, limit: u32) -> Option<Refusal> {
        let mut refused: Option<Refusal> = None;
        let mut step = 0;
        self.start();
        loop {
            let judged = step > 0 || !self.fault.is(Mutant::RoomZeroStep);
            let lack = self.lack().filter(|_| judged);
            if let Some(number) = lack {
                let shift = u32::from(self.fault.is(Mutant::StepOff));
                let refusal = Refusal::at(number, (step + shift) as usize);
                if !self.fault.is(Mutant::NumberBeforeStep) {
                    return Some(refusal);
                }
                if !matches!(refused, Some(r) if r.number <= number) {
                    refused = Some(refusal);
                }
            }
            if step == limit {
                break;
            }
            let Some(vertex) = self.nearest() else { break };
            step += 1;
            self.settle(vertex);
        }
        if self.fault.is(Mutant::RoomAtEnd) && self.held > self.lent.held.len() / HELD {
            refused = Some(Refusal::at(8, step as usize));
        }
        refused
    }

    /// The number of the first buffer too small for the state after a step.
    fn lack(&self) -> Option<u32> {
        let (fault, lent) = (self.fault, &self.lent);
        let mut held = self.held + self.passing();
        if fault.is(Mutant::AddBeforeDrop) {
            held += self.dropped;
        }
        let slots = lent.held.len() / HELD;
        let eight = held > room(slots, fault, Mutant::HeldRoomTight, Mutant::HeldRoomLoose)
            && !fault.is(Mutant::RoomAtEnd);
        let slots = lent.settled.len() / SETTLED;
        let (tight, loose) = (Mutant::SettledRoomTight, Mutant::SettledRoomLoose);
        let nine = self.settled > room(slots, fault, tight, loose);
        let ten = self.parts.as_ref().is_some_and(Parts::lack);
        if fault.is(Mutant::NineBeforeEight) && nine {
            return Some(9);
        }
        let lacks = [(8, eight), (9, nine), (10, ten)];
        let first = lacks.iter().find(|(_, lack)| *lack);
        first.map(|(number, _)| *number)
    }

    fn answer(&mut self, limit: u32) -> Answer {
        let finished = match self.fault.is(Mutant::FinishedLimit) {
            true => self.settled < limit as usize,
            false => self.nearest().is_none(),
        };
        self.write_held();
        if !self.fault.is(Mutant::TailKept) {
            rest(self.lent.held, self.held * HELD);
            rest(self.lent.settled, self.settled * SETTLED);
        }
        let parts = self.parts.take();
        let count = parts.as_ref().map_or(0, |parts| parts.count);
        if let Some(parts) = parts {
            parts.close();
        }
        Answer {
            refusal: 0,
            place: 0,
            settled: self.settled as u32,
            parts: count as u32,
            held: self.held as u32,
            finished: u32::from(finished),
        }
    }

    fn write_held(&mut self) {
        let mut count = 0;
        let last = self.entries.len() as u32 - 1;
        for index in 0..=last {
            let reversed = self.fault.is(Mutant::HeldReversed);
            let vertex = if reversed { last - index } else { index };
            if !self.is_held(vertex) {
                continue;
            }
            let entry = self.entries[vertex as usize];
            let record = Held {
                vertex,
                distance: entry.known,
                state: u32::from(entry.settled && !self.fault.is(Mutant::StateZero)),
                remaining: entry.remaining,
            };
            if let Some(slot) = self.lent.held.chunks_exact_mut(HELD).nth(count) {
                slot.copy_from_slice(&record.bytes());
            }
            count += 1;
        }
    }
}

/// The slots counted on: what there are, unless a mutant is at work.
fn room<F: Fault>(slots: usize, fault: F, tight: Mutant, loose: Mutant) -> usize {
    let fewer = usize::from(fault.is(tight)).min(slots);
    slots + usize::from(fault.is(loose)) - fewer
}

fn rest(buffer: &mut [u8], from: usize) {
    if let Some(tail) = buffer.get_mut(from..) {
        tail.fill(0);
    }
}
