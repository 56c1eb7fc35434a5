//! Refusals 1 to 7. Each number is judged over the whole of its table before
//! the next one, since the lowest number wins before the lowest place.

use std::ops::RangeInclusive;

use super::hops;
use crate::mutant::{Fault, Mutant, Sound};
use crate::records::{
    word, Lent, Query, Refusal, Tables, Vertex, Walk, HELD, LISTED, NONE, PART, SETTLED, VERTEX,
    WALK,
};

const MOST_VERTICES: usize = 65_536;
const MOST_RECORDS: usize = 262_144;
const MOST_LENGTH: u32 = 100_000;
const MOST_WAIT: u32 = 120;
const FIRST_TIME: i32 = -86_400;
const LAST_TIME: i32 = 172_800;

/// A lent slice: its place in refusal 1, its length in bytes, its record size.
type Length = (usize, usize, usize);

/// The check alone: 1 (places 0 to 2) to 6.
pub fn check<F: Fault>(tables: Tables, fault: F) -> Option<Refusal> {
    sizes(tables, fault).or_else(|| judge_records(tables, fault))
}

/// Everything that a run judges before step 0.
pub fn judge_run<F: Fault>(tables: Tables, query: Query, lent: &Lent, fault: F) -> Option<Refusal> {
    let (held, settled) = (lent.held.len(), lent.settled.len());
    judge(
        tables,
        query,
        &[(3, held, HELD), (4, settled, SETTLED)],
        fault,
    )
}

/// Everything that the parts operation judges before its list.
pub fn judge_parts<F: Fault>(
    tables: Tables,
    query: Query,
    list: usize,
    parts: usize,
    fault: F,
) -> Option<Refusal> {
    let rows = [(4, list, SETTLED), (5, parts, PART)];
    if fault.is(Mutant::PartsBeforeList) {
        return judge(tables, query, &[rows[1], rows[0]], fault);
    }
    judge(tables, query, &rows, fault)
}

/// Everything that is judged before the entries of a bought list.
pub fn judge_bought<F: Fault>(
    tables: Tables,
    query: Query,
    list: usize,
    fault: F,
) -> Option<Refusal> {
    let list = match fault.is(Mutant::BoughtCut) {
        true => list / LISTED * LISTED,
        false => list,
    };
    judge(tables, query, &[(4, list, LISTED)], fault)
}

/// Everything that the one run of RULES 11.7 judges before step 0.
pub fn judge_one_run(tables: Tables, query: Query, lent: &Lent, parts: &[u8]) -> Option<Refusal> {
    let rows = [
        (3, lent.held.len(), HELD),
        (4, lent.settled.len(), SETTLED),
        (5, parts.len(), PART),
    ];
    judge(tables, query, &rows, Sound)
}

/// Refusals 1 to 7 with the slices lent.
fn judge<F: Fault>(tables: Tables, query: Query, lent: &[Length], fault: F) -> Option<Refusal> {
    if fault.is(Mutant::QueryFirst) {
        return sizes(tables, fault)
            .or_else(|| asked(tables, query, fault))
            .or_else(|| judge_records(tables, fault));
    }
    if fault.is(Mutant::BuffersLast) {
        return check(tables, fault)
            .or_else(|| buffers(tables, lent, fault))
            .or_else(|| asked(tables, query, fault));
    }
    if fault.is(Mutant::HopSizeLate) && !hops::is_size(tables.hop_size as usize, fault) {
        let sizes = sizes(tables, fault);
        let before = sizes.filter(|refusal| refusal.place < 2);
        return before.or_else(|| buffers(tables, lent, fault)).or(sizes);
    }
    judge_tables(tables, lent, fault).or_else(|| asked(tables, query, fault))
}

/// Refusals 1 to 6 with the slices lent: what does not depend on the query.
pub fn judge_tables<F: Fault>(tables: Tables, lent: &[Length], fault: F) -> Option<Refusal> {
    judge_lengths(tables, lent, fault).or_else(|| judge_records(tables, fault))
}

/// Refusal 1.
pub fn judge_lengths<F: Fault>(tables: Tables, lent: &[Length], fault: F) -> Option<Refusal> {
    sizes(tables, fault).or_else(|| buffers(tables, lent, fault))
}

fn sizes<F: Fault>(tables: Tables, fault: F) -> Option<Refusal> {
    let fewest = usize::from(!fault.is(Mutant::NoVertexAccepted));
    let vertices = MOST_VERTICES + usize::from(fault.is(Mutant::VertexCountLoose));
    let walks = MOST_RECORDS + usize::from(fault.is(Mutant::WalkCountLoose));
    let hops = MOST_RECORDS - usize::from(fault.is(Mutant::HopCountTight));
    let hop = tables.hop_size as usize;
    let named = hops::is_size(hop, fault);
    if fault.is(Mutant::HopSizeFirst) && !named {
        return Some(Refusal::at(1, 2));
    }
    let whole = |len: usize, size: usize, counts: RangeInclusive<usize>| {
        len % size == 0 && counts.contains(&(len / size))
    };
    let good = [
        whole(tables.vertices.len(), VERTEX, fewest..=vertices),
        whole(tables.walks.len(), WALK, 0..=walks),
        named && whole(tables.hops.len(), hop, 0..=hops),
    ];
    let bad = good.iter().position(|good| !good)?;
    if fault.is(Mutant::TableCut) && bad == 1 {
        return None;
    }
    Some(Refusal::at(1, bad))
}

/// Lent slices have no limits of count, only whole records.
fn buffers<F: Fault>(tables: Tables, lent: &[Length], fault: F) -> Option<Refusal> {
    let many =
        |&(place, len, size): &Length| place == 3 && len / size > tables.vertices.len() / VERTEX;
    if fault.is(Mutant::HeldCount) && lent.iter().any(many) {
        return Some(Refusal::at(1, 3));
    }
    let passed = |place: usize| {
        (fault.is(Mutant::BufferCut) && place == 5) || (fault.is(Mutant::ListCut) && place == 4)
    };
    let bad = lent
        .iter()
        .find(|&&(place, len, size)| len % size != 0 && !passed(place))?;
    Some(Refusal::at(1, bad.0))
}

/// Refusals 2 to 6.
pub fn judge_records<F: Fault>(tables: Tables, fault: F) -> Option<Refusal> {
    let walk_to = |i: usize| word(tables.walks, i * WALK + 4);
    let hop_to = |i: usize| hops::read(tables, i, fault).to;
    let walks = || order(tables.walks.len() / WALK, walk_to, 4, fault);
    let hops = || order(hops::count(tables, fault), hop_to, 5, fault);
    if fault.is(Mutant::OrderBeforeHops) {
        return bad_walk(tables, fault)
            .or_else(walks)
            .or_else(|| bad_hop(tables, fault))
            .or_else(hops)
            .or_else(|| bad_vertex(tables, fault));
    }
    bad_walk(tables, fault)
        .or_else(|| bad_hop(tables, fault))
        .or_else(walks)
        .or_else(hops)
        .or_else(|| bad_vertex(tables, fault))
}

fn bad_walk<F: Fault>(tables: Tables, fault: F) -> Option<Refusal> {
    let vertices = (tables.vertices.len() / VERTEX) as u32;
    let count = tables.walks.len() / WALK;
    let least = u32::from(!fault.is(Mutant::LengthZero));
    let most = MOST_LENGTH + u32::from(fault.is(Mutant::LengthLoose));
    let bad = (0..count).find(|&i| {
        let walk = Walk::read(tables.walks, i);
        walk.from >= vertices
            || walk.to >= vertices
            || (walk.from == walk.to && !fault.is(Mutant::SameEnds))
            || (walk.length < least && !(fault.is(Mutant::LengthZeroWait) && walk.wait > 0))
            || walk.length > most
            || !good_wait(walk.wait, fault)
            || !good_twin(tables.walks, i, walk, fault)
    })?;
    Some(Refusal::at(2, bad))
}

fn good_wait<F: Fault>(wait: u32, fault: F) -> bool {
    let most = match fault {
        _ if fault.is(Mutant::WaitLoose) => MOST_WAIT + 1,
        _ if fault.is(Mutant::WaitTight) => MOST_WAIT - 1,
        _ if fault.is(Mutant::WaitNever) => 0,
        _ => MOST_WAIT,
    };
    let unsigned = !fault.is(Mutant::WaitSigned) || wait < 128;
    wait <= most || !unsigned
}

/// A record is judged by its own twin field only.
fn good_twin<F: Fault>(walks: &[u8], index: usize, walk: Walk, fault: F) -> bool {
    if fault.is(Mutant::TwinJudgesOther) && named_in_vain(walks, index, walk) {
        return false;
    }
    if walk.twin == NONE {
        return true;
    }
    let mut other = walk.twin as usize;
    if fault.is(Mutant::TwinWraps) {
        other = (walk.twin.wrapping_mul(WALK as u32) / WALK as u32) as usize;
    }
    if other >= walks.len() / WALK {
        return fault.is(Mutant::TwinMissingFar);
    }
    let twin = Walk::read(walks, other);
    let ends = twin.from == walk.to && twin.to == walk.from;
    (ends || fault.is(Mutant::TwinEnds))
        && (twin.length == walk.length || fault.is(Mutant::TwinLength))
        && (twin.wait == walk.wait || !fault.is(Mutant::TwinWaits))
        && (twin.twin == index as u32 || fault.is(Mutant::TwinNotBack))
}

/// Only for a mutant: does a record without twin have one that names it?
fn named_in_vain(walks: &[u8], index: usize, walk: Walk) -> bool {
    let names = |i: usize| Walk::read(walks, i).twin == index as u32;
    walk.twin == NONE && (0..walks.len() / WALK).any(names)
}

fn bad_hop<F: Fault>(tables: Tables, fault: F) -> Option<Refusal> {
    let vertices = (tables.vertices.len() / VERTEX) as u32;
    let count = hops::count(tables, fault);
    let last = LAST_TIME - i32::from(fault.is(Mutant::HopTimesTight));
    let first = FIRST_TIME + i32::from(fault.is(Mutant::HopFirstTight));
    let bad = (0..count).find(|&i| {
        let hop = hops::read(tables, i, fault);
        let still = hop.departure == hop.arrival && fault.is(Mutant::HopStill);
        hop.from >= vertices
            || hop.to >= vertices
            || hop.from == hop.to
            || hop.departure < first
            || hop.arrival > last
            || (hop.departure > hop.arrival && !fault.is(Mutant::HopBack))
            || still
            || (fault.is(Mutant::HopUnsigned) && hop.departure < 0)
    })?;
    Some(Refusal::at(3, bad))
}

/// So many records, each with its "to".
fn order<F: Fault>(
    count: usize,
    to: impl Fn(usize) -> u32,
    number: u32,
    fault: F,
) -> Option<Refusal> {
    let strict = fault.is(Mutant::OrderStrict);
    let falls = |i: &usize| to(*i) < to(*i - 1) || (strict && to(*i) == to(*i - 1));
    let bad = (1..count).find(falls)?;
    let earlier = usize::from(fault.is(Mutant::OrderEarlier));
    Some(Refusal::at(number, bad - earlier))
}

/// Both tables ascend by now, so one pass along them gives every first.
fn bad_vertex<F: Fault>(tables: Tables, fault: F) -> Option<Refusal> {
    let count = tables.vertices.len() / VERTEX;
    let (walks, hops) = (tables.walks.len() / WALK, hops::count(tables, fault));
    let departing = departing(tables, count, fault);
    let (mut walk, mut hop) = (0, 0);
    let judged = count - usize::from(fault.is(Mutant::LastVertex));
    for (v, &leaving) in departing.iter().enumerate().take(judged) {
        while walk < walks && (Walk::read(tables.walks, walk).to as usize) < v {
            walk += 1;
        }
        while hop < hops && (hops::read(tables, hop, fault).to as usize) < v {
            hop += 1;
        }
        let vertex = Vertex::read(tables.vertices, v);
        let first_hop = vertex.first_hop as usize == hop || fault.is(Mutant::VertexFirstOnly);
        let idle = walk == walks || Walk::read(tables.walks, walk).to as usize != v;
        let first_walk =
            vertex.first_walk as usize == walk || (idle && fault.is(Mutant::FirstIdle));
        let good = first_walk
            && first_hop
            && u32::from(vertex.departing) == leaving
            && (vertex.zero == 0 || fault.is(Mutant::ZeroIgnored));
        if !good {
            return Some(Refusal::at(6, v));
        }
    }
    None
}

/// Counted in 32 bits: 65,536 records from one vertex fit no field.
fn departing<F: Fault>(tables: Tables, count: usize, fault: F) -> Vec<u32> {
    let mut departing = vec![0; count];
    for i in 0..tables.walks.len() / WALK {
        departing[Walk::read(tables.walks, i).from as usize] += 1;
    }
    if !fault.is(Mutant::DepartingWalks) {
        for i in 0..hops::count(tables, fault) {
            departing[hops::read(tables, i, fault).from as usize] += 1;
        }
    }
    if fault.is(Mutant::DepartingModulo) {
        departing.iter_mut().for_each(|n| *n %= 65_536);
    }
    departing
}

/// Refusal 7.
pub fn asked<F: Fault>(tables: Tables, query: Query, fault: F) -> Option<Refusal> {
    if query.record as usize >= tables.walks.len() / WALK {
        return Some(Refusal::at(7, 0));
    }
    let road = Walk::read(tables.walks, query.record as usize);
    let length = match fault.is(Mutant::OffsetWide) {
        true => road.length + (road.wait << 24),
        false => road.length,
    };
    let tight = fault.is(Mutant::OffsetTight) && query.offset == length;
    let early = query.arrival < 0 && !fault.is(Mutant::ArrivalUnsigned);
    let fewest = u32::from(!fault.is(Mutant::DurationZero));
    let longest = 86_400 + u32::from(fault.is(Mutant::DurationLoose));
    let latest = LAST_TIME + i32::from(fault.is(Mutant::ArrivalLoose));
    let fastest = 100 + u32::from(fault.is(Mutant::SpeedLoose));
    let bad = [
        query.offset > length || tight,
        early || query.arrival > latest,
        !(fewest..=longest).contains(&query.duration),
        !(1..=fastest).contains(&query.speed),
    ];
    let place = bad.iter().position(|&b| b)?;
    Some(Refusal::at(7, 1 + place))
}
