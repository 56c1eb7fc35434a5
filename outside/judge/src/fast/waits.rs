//! The waits of walks, in ticks: what each use of one pays.

use crate::mutant::{Fault, Mutant};
use crate::records::{Query, Tables, Walk, NONE};

/// A wait of so many seconds; `plain` is the mutant that forgets the speed.
#[inline]
fn ticks<F: Fault>(wait: u32, query: Query, fault: F, plain: Mutant) -> u32 {
    match fault.is(plain) {
        true => wait,
        false => wait * query.speed,
    }
}

/// What a whole walk takes.
#[inline]
pub fn cost<F: Fault>(walk: Walk, query: Query, fault: F) -> u32 {
    if fault.is(Mutant::WaitFree) {
        return walk.length;
    }
    walk.length + ticks(walk.wait, query, fault, Mutant::WaitPlain)
}

/// What a part at a vertex pays of the time that is left there.
#[inline]
pub fn at_vertex<F: Fault>(walk: Walk, query: Query, fault: F) -> u32 {
    if fault.is(Mutant::WaitAtFrom) || fault.is(Mutant::PartWaitFree) {
        return 0;
    }
    let once = ticks(walk.wait, query, fault, Mutant::PartWaitPlain);
    match fault.is(Mutant::PartWaitTwice) {
        true => 2 * once,
        false => once,
    }
}

/// What the way straight to the place pays at its lights: on the query's road
/// where the place is its far end, and on the twin where it is the near end.
pub struct Straight {
    pub own: u32,
    pub twin: u32,
}

fn twin_of<F: Fault>(tables: Tables, road: Walk, fault: F) -> u32 {
    match road.twin {
        _ if fault.is(Mutant::TwinOwnWait) => road.wait,
        NONE => 0,
        twin => Walk::read(tables.walks, twin as usize).wait,
    }
}

/// Of the two seeds.
pub fn seeds<F: Fault>(tables: Tables, road: Walk, query: Query, fault: F) -> Straight {
    let inside = query.offset > 0 && query.offset < road.length;
    let inner = inside && (fault.is(Mutant::SeedInnerWait) || fault.is(Mutant::WaitAtFrom));
    let twin = twin_of(tables, road, fault);
    let own = match fault.is(Mutant::OwnTwinWait) {
        true => twin,
        false => road.wait,
    };
    let end = query.offset == road.length && !fault.is(Mutant::SeedEndFree);
    let start = query.offset == 0 && !fault.is(Mutant::SeedStartFree);
    let paid = |holds: bool, wait: u32| match holds || inner {
        true => ticks(wait, query, fault, Mutant::SeedWaitPlain),
        false => 0,
    };
    Straight {
        own: paid(end, own),
        twin: paid(start, twin),
    }
}

/// Of the two parts of step 0.
pub fn first_parts<F: Fault>(tables: Tables, road: Walk, query: Query, fault: F) -> Straight {
    let always = fault.is(Mutant::FirstWaitAlways);
    let twin = twin_of(tables, road, fault);
    let end = query.offset == road.length && !fault.is(Mutant::FirstWaitFree);
    let start = query.offset == 0 && !fault.is(Mutant::FirstWaitTwinFree);
    let paid = |holds: bool, wait: u32| match (holds || always) && !fault.is(Mutant::WaitAtFrom) {
        true => ticks(wait, query, fault, Mutant::PartWaitPlain),
        false => 0,
    };
    Straight {
        own: paid(end, road.wait),
        twin: paid(start, twin),
    }
}
