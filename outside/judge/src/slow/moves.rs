//! The moves of a hop table: each record written out, with a trip of zeros
//! behind it or without.

use super::check::{cut, least, Given};
use super::write::write;
use crate::records::Way;

pub fn moved(way: Way, source: &[u8], target: &mut [u8]) -> Option<Given> {
    let refused = match way {
        Way::Forward => lengths(source.len(), 16, target.len(), 20),
        Way::Backward => lengths(source.len(), 20, target.len(), 16).or_else(|| tripped(source)),
    };
    if refused.is_none() {
        match way {
            Way::Forward => write(target, source.chunks(16).map(widened)),
            Way::Backward => write(target, source.chunks(20).map(narrowed)),
        }
    }
    refused
}

/// The source by itself, then the target by the records of the source.
fn lengths(source: usize, own: usize, target: usize, other: usize) -> Option<Given> {
    least(1, 7, |place| match place {
        2 => cut(source, own) || source / own > 262_144,
        6 => target != source / own * other,
        _ => false,
    })
}

fn tripped(source: &[u8]) -> Option<Given> {
    least(11, source.len() / 20, |i| {
        source[20 * i + 16..20 * i + 20] != [0; 4]
    })
}

fn widened(hop: &[u8]) -> [u8; 20] {
    std::array::from_fn(|i| if i < 16 { hop[i] } else { 0 })
}

fn narrowed(hop: &[u8]) -> [u8; 16] {
    std::array::from_fn(|i| hop[i])
}
