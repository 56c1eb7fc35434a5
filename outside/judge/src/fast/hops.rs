//! The hop table, read with the size that the caller names.

use crate::mutant::{Fault, Mutant};
use crate::records::{trip, Hop, Tables, HOP, TRIP_HOP};

/// The tables with the hop size as it is read: a mutant may take it for
/// another one.
pub fn named<F: Fault>(tables: Tables, fault: F) -> Tables {
    let narrow = fault.is(Mutant::HopSizeOther)
        || (fault.is(Mutant::HopSizeZero) && tables.hop_size == 0)
        || (fault.is(Mutant::HopSizeEmpty) && tables.hops.is_empty());
    let hop_size = match tables.hop_size {
        size if is_size(size as usize, fault) => size,
        _ if narrow => HOP as u32,
        size if fault.is(Mutant::HopSizeByte) => size & 0xff,
        size => size,
    };
    Tables { hop_size, ..tables }
}

/// Whether a hop record can have this size.
pub fn is_size<F: Fault>(size: usize, fault: F) -> bool {
    let words = fault.is(Mutant::HopSizeWords) && size > TRIP_HOP && size % 4 == 0;
    size == HOP || size == TRIP_HOP || words
}

/// How many hops there are, once the size is judged.
pub fn count<F: Fault>(tables: Tables, fault: F) -> usize {
    match fault.is(Mutant::HopCountNarrow) {
        true => tables.hops.len() / HOP,
        false => tables.hops.len() / tables.hop_size as usize,
    }
}

#[inline]
pub fn read<F: Fault>(tables: Tables, index: usize, fault: F) -> Hop {
    let size = match fault.is(Mutant::HopStride) {
        true => HOP,
        false => tables.hop_size as usize,
    };
    let mut hop = Hop::read(tables.hops, size, index);
    if fault.is(Mutant::TripArrival) && size == TRIP_HOP {
        hop.arrival = trip(tables.hops, index) as i32;
    }
    if fault.is(Mutant::TripDeparture) && size == TRIP_HOP {
        (hop.departure, hop.arrival) = (hop.arrival, trip(tables.hops, index) as i32);
    }
    hop
}
