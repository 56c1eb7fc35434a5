//! What no call can do without: the tables are read once, and every byte of the
//! lent buffers is written.

use std::hint::black_box;
use std::time::Duration;

use outside::network::{full_scene, grid_scene};
use outside::outcome::Case;
use outside::records::{HELD, SETTLED};

use crate::clock::timed;
use crate::page::grouped;

/// So many bytes in order, the least time of some rounds.
pub struct Pass {
    pub bytes: usize,
    pub time: Duration,
}

/// Words are summed up eight at a time, so that nothing but reading takes time.
fn sum(bytes: &[u8]) -> u64 {
    let mut sums = [0u64; 8];
    let blocks = bytes.chunks_exact(64);
    let rest = blocks.remainder();
    for block in blocks {
        for (sum, word) in sums.iter_mut().zip(block.chunks_exact(8)) {
            let word = word.try_into().map_or(0, u64::from_ne_bytes);
            *sum = sum.wrapping_add(word);
        }
    }
    let rest = rest.iter().map(|&byte| u64::from(byte));
    sums.into_iter().chain(rest).fold(0, u64::wrapping_add)
}

/// The first round brings the bytes to where every call finds them.
fn least(rounds: usize, bytes: usize, mut once: impl FnMut() -> Duration) -> Pass {
    once();
    Pass {
        bytes,
        time: (0..rounds).map(|_| once()).min().unwrap_or_default(),
    }
}

/// One plain pass over the three tables.
pub fn read(case: &Case, rounds: usize) -> Pass {
    let tables = [&case.vertices, &case.walks, &case.hops];
    let bytes = tables.iter().map(|table| table.len()).sum();
    least(rounds, bytes, || {
        let (time, sums) = timed(|| tables.map(|table| sum(black_box(table))));
        black_box(sums);
        time
    })
}

/// Zeros in buffers with room for so many held and settled vertices.
fn write(vertices: usize, rounds: usize) -> Pass {
    let mut buffers = vec![0xA5u8; vertices * (HELD + SETTLED)];
    least(rounds, buffers.len(), || {
        let (time, ()) = timed(|| black_box(&mut buffers).fill(0));
        black_box(&buffers);
        time
    })
}

/// Both, of the city grid and of the largest network, in one line.
pub fn line(rounds: usize) -> String {
    let scenes = [
        ("the 200 by 200 grid", grid_scene(200, 40_000, 20_000, 900)),
        ("full size", full_scene(600)),
    ];
    let told = scenes.map(|(name, scene)| {
        let network = &scene.network;
        let read = read(&network.check_case(), rounds).told();
        let written = write(network.vertices.len(), rounds).told();
        format!("{name}, {read} read and {written} written")
    });
    let told = told.join("; ");
    format!("The limit, tables read once and buffers with room for every vertex written once: {told}.\n")
}

impl Pass {
    /// How many bytes, how long they took and how fast that is.
    fn told(&self) -> String {
        let seconds = self.time.as_secs_f64();
        let gigabytes = self.bytes as f64 / seconds / 1e9;
        let (bytes, millis) = (grouped(self.bytes), seconds * 1e3);
        format!("{bytes} bytes in {millis:.3} ms ({gigabytes:.1} GB a second)")
    }
}

#[cfg(test)]
mod tests {
    use super::*;

    #[test]
    fn every_byte_counts() {
        let bytes: Vec<u8> = (0..1_000).map(|n| (n % 251) as u8).collect();
        for at in [0, 7, 500, 959, 960, 999] {
            let mut other = bytes.clone();
            other[at] += 1;
            assert_ne!(sum(&other), sum(&bytes), "{at}");
        }
    }

    #[test]
    fn all_tables_are_read_and_all_buffers_written() {
        let case = grid_scene(9, 81, 100, 900).network.check_case();
        assert_eq!(read(&case, 3).bytes, 12 * 81 + 16 * 4 * 8 * 9 + 16 * 100);
        assert!(read(&case, 3).told().starts_with("7,180 bytes in "));
        assert_eq!(write(81, 3).bytes, 24 * 81);
    }
}
