//! Faults put into good tables, one at a named place.

use crate::network::Network;
use crate::outcome::Case;
use crate::records::{word, Query, NONE};
use crate::rng::Rng;

/// One way to break a record. The name tells the table, then the fault.
#[derive(Clone, Copy, Debug)]
pub enum Harm {
    WalkFrom,
    WalkTo,
    WalkEnds,
    WalkZero,
    WalkLong,
    WalkLonger,
    WalkWaits,
    WaitAlone,
    TwinSelf,
    TwinCount,
    TwinOther,
    TwinWrap,
    TwinGone,
    WalkOrder,
    HopFrom,
    HopTo,
    HopEnds,
    HopBack,
    HopSwapped,
    HopEarly,
    HopLate,
    HopOrder,
    FirstWalk,
    FirstHop,
    Departing,
    Zero,
}

/// The harms by the refusal they mostly lead to: 2, twins apart, 3, 4, 5 and 6.
const HARMS: [&[Harm]; 6] = [
    &[
        Harm::WalkFrom,
        Harm::WalkTo,
        Harm::WalkEnds,
        Harm::WalkZero,
        Harm::WalkLong,
        Harm::WalkLonger,
        Harm::WalkWaits,
        Harm::WaitAlone,
    ],
    &[
        Harm::TwinSelf,
        Harm::TwinCount,
        Harm::TwinOther,
        Harm::TwinWrap,
        Harm::TwinGone,
    ],
    &[
        Harm::HopFrom,
        Harm::HopTo,
        Harm::HopEnds,
        Harm::HopBack,
        Harm::HopSwapped,
        Harm::HopEarly,
        Harm::HopLate,
    ],
    &[Harm::WalkOrder],
    &[Harm::HopOrder],
    &[Harm::FirstWalk, Harm::FirstHop, Harm::Departing, Harm::Zero],
];

/// Any harm; each refusal is as likely as the others, except that the many
/// ways to break a walk, and those of a twin, come as often each.
pub fn any(rng: &mut Rng) -> Harm {
    let class = rng.below(HARMS.len());
    rng.pick(HARMS[class])
}

impl Harm {
    /// How many records the harm can be done to.
    pub fn places(self, network: &Network) -> usize {
        match self {
            Harm::FirstWalk | Harm::FirstHop | Harm::Departing | Harm::Zero => {
                network.vertices.len()
            }
            Harm::HopFrom
            | Harm::HopTo
            | Harm::HopEnds
            | Harm::HopBack
            | Harm::HopSwapped
            | Harm::HopEarly
            | Harm::HopLate
            | Harm::HopOrder => network.hops.len(),
            _ => network.walks.len(),
        }
    }

    pub fn put(self, network: &mut Network, place: usize, rng: &mut Rng) {
        match self {
            Harm::FirstWalk | Harm::FirstHop | Harm::Departing | Harm::Zero => {
                self.put_vertex(network, place, rng)
            }
            Harm::TwinSelf
            | Harm::TwinCount
            | Harm::TwinOther
            | Harm::TwinWrap
            | Harm::TwinGone
            | Harm::WalkOrder => self.put_twin(network, place, rng),
            Harm::WalkFrom
            | Harm::WalkTo
            | Harm::WalkEnds
            | Harm::WalkZero
            | Harm::WalkLong
            | Harm::WalkLonger
            | Harm::WalkWaits
            | Harm::WaitAlone => self.put_walk(network, place, rng),
            _ => self.put_hop(network, place),
        }
    }

    fn put_vertex(self, network: &mut Network, place: usize, rng: &mut Rng) {
        let vertex = &mut network.vertices[place];
        let step = rng.pick(&[1, NONE]);
        match self {
            Harm::FirstWalk => vertex.first_walk = vertex.first_walk.wrapping_add(step),
            Harm::FirstHop => vertex.first_hop = vertex.first_hop.wrapping_add(step),
            Harm::Departing => vertex.departing = vertex.departing.wrapping_add(step as u16),
            _ => vertex.zero = rng.pick(&[1, 0x100, 0x8000, 0xffff]),
        }
    }

    fn put_walk(self, network: &mut Network, place: usize, rng: &mut Rng) {
        let vertices = network.vertices.len() as u32;
        let walk = &mut network.walks[place];
        match self {
            Harm::WalkFrom => walk.from = vertices,
            Harm::WalkTo => walk.to = vertices,
            Harm::WalkEnds => walk.from = walk.to,
            Harm::WalkZero => walk.length = 0,
            Harm::WalkLong => walk.length = 100_001,
            Harm::WalkWaits => walk.wait = rng.pick(&[121, 121, 122, 127, 128, 248, 255]),
            Harm::WaitAlone => (walk.length, walk.wait) = (0, rng.pick(&[1, 120])),
            // On a pair this makes both records faulty, and neither alone.
            _ => walk.length = walk.length % 100_000 + 1,
        }
    }

    fn put_twin(self, network: &mut Network, place: usize, rng: &mut Rng) {
        let count = network.walks.len();
        let other = rng.below(count);
        let walk = &mut network.walks[place];
        match self {
            Harm::TwinSelf => walk.twin = place as u32,
            Harm::TwinCount => walk.twin = count as u32,
            Harm::TwinOther => walk.twin = other as u32,
            Harm::TwinWrap => walk.twin = walk.twin.wrapping_add(0x1000_0000),
            // The record itself is good then; its twin names it in vain.
            Harm::TwinGone => walk.twin = NONE,
            _ if place > 0 => network.swap_walks(place - 1, place),
            _ => {}
        }
    }

    fn put_hop(self, network: &mut Network, place: usize) {
        let vertices = network.vertices.len() as u32;
        if matches!(self, Harm::HopOrder) {
            network.hops.swap(place.max(1) - 1, place);
            return;
        }
        let hop = &mut network.hops[place];
        match self {
            Harm::HopFrom => hop.from = vertices,
            Harm::HopTo => hop.to = vertices,
            Harm::HopEnds => hop.from = hop.to,
            Harm::HopBack => hop.departure = hop.arrival + 1,
            Harm::HopSwapped => std::mem::swap(&mut hop.departure, &mut hop.arrival),
            Harm::HopEarly => hop.departure = -86_401,
            _ => hop.arrival = 172_801,
        }
    }
}

/// Two to four harms at once, wherever they fall.
pub fn several(network: &mut Network, rng: &mut Rng) {
    for _ in 0..rng.range(2, 4) {
        let harm = any(rng);
        let places = harm.places(network);
        if places > 0 {
            let place = rng.below(places);
            harm.put(network, place, rng);
        }
    }
}

/// Values at which 32-bit arithmetic, signs and the limits turn.
pub fn extremes(case: &Case, old: u32, index: usize) -> Vec<u32> {
    let vertices = (case.vertices.len() / 12) as u32;
    let walks = (case.walks.len() / 16) as u32;
    let index = index as u32;
    let mut values = vec![
        0,
        1,
        99_999,
        100_000,
        100_001,
        65_535,
        65_536,
        0x1_0000_u32 << 8,
    ];
    values.extend([
        vertices - 1,
        vertices,
        vertices + 1,
        walks,
        walks + 1,
        index,
    ]);
    values.extend([0x7fff_ffff, 0x8000_0000, 0xffff_fffe, 0xffff_ffff]);
    values.extend([-86_401i32, -86_400, -1, 172_800, 172_801, 86_400, 86_401].map(|t| t as u32));
    values.extend([
        0x1000_0000 + index,
        0x2000_0000 + index,
        0x0800_0000 + index,
    ]);
    let waits = [1, 2, 119, 120, 121, 127, 128, 255];
    values.extend(waits.map(|wait| old & 0xff_ffff | wait << 24));
    values.extend(waits.map(|wait| wait << 24));
    values.extend([1, NONE, 0x8000_0000, 0x1000_0000, 0x0001_0000].map(|d| old.wrapping_add(d)));
    let window = case.query.duration.wrapping_mul(case.query.speed);
    values.extend([0, 1, NONE].map(|d| window.wrapping_add(d)));
    values
}

/// Every field of one record set to extremes: two fifths of all there are,
/// so that such groups do not outgrow the others.
pub fn sweep(case: &Case, rng: &mut Rng) -> Vec<Case> {
    let sizes = [12, 16, 16, 8, 24];
    let tables = [
        &case.vertices,
        &case.walks,
        &case.hops,
        &case.list,
        &case.queries,
    ];
    let pick = match (case.list.is_empty(), case.queries.is_empty()) {
        (false, _) => rng.below(4),
        (_, false) => rng.pick(&[0, 1, 2, 4]),
        _ => rng.below(3),
    };
    let (table, size) = (tables[pick], sizes[pick]);
    if table.is_empty() {
        return Vec::new();
    }
    let index = rng.below(table.len() / size);
    let mut cases = Vec::new();
    for at in (index * size..(index + 1) * size).step_by(4) {
        for value in extremes(case, word(table, at), index) {
            let mut one = case.clone();
            let tables = [
                &mut one.vertices,
                &mut one.walks,
                &mut one.hops,
                &mut one.list,
                &mut one.queries,
            ];
            if let Some(table) = tables.into_iter().nth(pick) {
                table[at..at + 4].copy_from_slice(&value.to_be_bytes());
            }
            cases.push(one);
        }
    }
    cases.retain(|_| rng.chance(40));
    cases
}

/// A length beside the right one.
pub fn resize(bytes: &mut Vec<u8>, rng: &mut Rng) {
    let (len, less) = (bytes.len(), |by| bytes.len().saturating_sub(by));
    let lens = [
        0,
        len + 1,
        less(1),
        len + 4,
        less(4),
        len + 8,
        len + 12,
        len + 16,
        len + 20,
    ];
    bytes.resize(rng.pick(&lens), 0x5a);
}

/// Sizes of a hop, two of them good.
pub const HOP_SIZES: [u32; 10] = [0, 1, 15, 16, 17, 19, 20, 21, 32, NONE];

/// One field of a query at a limit or beyond.
pub fn query(query: &mut Query, rng: &mut Rng) {
    let Query { record, offset, .. } = *query;
    let [last, high, middle] = [1, 0x1000_0000, 64].map(|bit| record ^ bit);
    match rng.below(5) {
        0 => query.record = rng.pick(&[NONE, 0x8000_0000, last, high, middle]),
        1 => query.offset = rng.pick(&[offset ^ 1, offset.wrapping_add(1), 100_001, NONE]),
        2 => query.arrival = rng.pick(&[-1, 172_800, 172_801, i32::MIN, i32::MAX]),
        3 => query.duration = rng.pick(&[0, 86_400, 86_401, NONE, 0x8000_0000]),
        _ => query.speed = rng.pick(&[0, 1, 100, 101, NONE]),
    }
}
