//! The frame of a settled list: the library and the Rust program in turn.

use std::hint::black_box;

use framing::rules::frame;
use outside::rng::Rng;

use crate::clock::timed;
use crate::page::{grouped, head, row};
use crate::speed::Spent;

/// A program that answers the frame: the library, or one in its place.
pub trait Framer {
    fn frame(&self, vertices: &[u8], list: &[u8], coordinates: &[u8], answer: &mut [u8]) -> u32;
}

/// Every vertex once, in any order, with points of any finite bits.
struct Town {
    vertices: Vec<u8>,
    list: Vec<u8>,
    coordinates: Vec<u8>,
}

fn town(count: usize) -> Town {
    let mut rng = Rng::new(12, count as u64);
    let mut listed: Vec<u32> = (0..count as u32).collect();
    for i in 1..count {
        listed.swap(i, rng.below(i + 1));
    }
    let point = |rng: &mut Rng| (rng.draw() as u32 & 0xbf7f_ffff).to_be_bytes();
    Town {
        vertices: vec![0; 12 * count],
        list: listed.iter().flat_map(|v| (u64::from(*v) << 32).to_be_bytes()).collect(),
        coordinates: (0..2 * count).flat_map(|_| point(&mut rng)).collect(),
    }
}

/// The row of a town; an error where the answers differ.
fn measure<F: Framer>(library: &F, count: usize, rounds: usize) -> Result<String, String> {
    let town = black_box(town(count));
    let (vertices, list, coordinates) = (&town.vertices, &town.list, &town.coordinates);
    let mut times = Vec::new();
    for _ in 0..rounds {
        let mut answer = [0; 24];
        let (ours, value) = timed(|| library.frame(vertices, list, coordinates, &mut answer));
        let (theirs, right) = timed(|| black_box(frame(vertices, list, coordinates)));
        times.push((ours, theirs));
        let right: Vec<u8> = right.iter().flat_map(|number| number.to_be_bytes()).collect();
        if value != 0 || answer[..] != right[..] {
            return Err(format!("the frames of {count} vertices differ"));
        }
    }
    let first = [grouped(count)];
    Ok(row(&[&first[..], &Spent::of(&times).cells()].concat()))
}

pub fn table<F: Framer>(library: &F, rounds: usize) -> Result<String, String> {
    let columns = ["frame of so many vertices", "library ms", "Rust ms", "ratio", "ratio of the least"];
    let mut table = head(0, &columns);
    for count in [1_000, 40_000, 65_536] {
        table += &measure(library, count, rounds)?;
    }
    Ok(table)
}

#[cfg(test)]
mod tests {
    use super::*;

    /// The Rust program in the library's place, right or with one bit changed.
    struct Changed(u8);

    impl Framer for Changed {
        fn frame(&self, vertices: &[u8], list: &[u8], coordinates: &[u8], answer: &mut [u8]) -> u32 {
            for (at, number) in frame(vertices, list, coordinates).iter().enumerate() {
                answer[4 * at..4 * at + 4].copy_from_slice(&number.to_be_bytes());
            }
            answer[23] ^= self.0;
            0
        }
    }

    #[test]
    fn wrong_frames_end_the_measurement() {
        assert!(measure(&Changed(0), 300, 2).is_ok());
        assert!(measure(&Changed(1), 300, 2).is_err());
    }
}
