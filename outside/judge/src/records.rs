//! Record types and their bytes: the only thing `fast` and `slow` share.

/// "None" as a distance and "no twin".
pub const NONE: u32 = u32::MAX;

pub const VERTEX: usize = 12;
pub const WALK: usize = 16;
pub const HOP: usize = 16;
/// A hop with its trip behind it.
pub const TRIP_HOP: usize = 20;
pub const HELD: usize = 16;
pub const SETTLED: usize = 8;
pub const PART: usize = 12;
/// An entry of a bought list.
pub const LISTED: usize = 12;
/// A query among many: its five fields and its limit.
pub const ASKED: usize = 24;
pub const ANSWER: usize = 24;
pub const PARTS_ANSWER: usize = 12;
pub const JOB: usize = 20;

/// The big-endian word that begins at byte `at`.
pub fn word(bytes: &[u8], at: usize) -> u32 {
    u32::from_be_bytes([bytes[at], bytes[at + 1], bytes[at + 2], bytes[at + 3]])
}

fn half(bytes: &[u8], at: usize) -> u16 {
    u16::from_be_bytes([bytes[at], bytes[at + 1]])
}

/// Lays words one behind the other, big-endian.
fn lay<const N: usize>(words: &[u32]) -> [u8; N] {
    let mut bytes = [0; N];
    for (slot, word) in bytes.chunks_exact_mut(4).zip(words) {
        slot.copy_from_slice(&word.to_be_bytes());
    }
    bytes
}

#[derive(Clone, Copy, Debug, PartialEq, Eq)]
pub struct Vertex {
    pub first_walk: u32,
    pub first_hop: u32,
    pub departing: u16,
    pub zero: u16,
}

impl Vertex {
    pub fn read(table: &[u8], index: usize) -> Self {
        let at = index * VERTEX;
        Vertex {
            first_walk: word(table, at),
            first_hop: word(table, at + 4),
            departing: half(table, at + 8),
            zero: half(table, at + 10),
        }
    }

    pub fn bytes(&self) -> [u8; VERTEX] {
        let last = u32::from(self.departing) << 16 | u32::from(self.zero);
        lay(&[self.first_walk, self.first_hop, last])
    }
}

#[derive(Clone, Copy, Debug, PartialEq, Eq)]
pub struct Walk {
    pub from: u32,
    pub to: u32,
    /// The lower three bytes of its word.
    pub length: u32,
    /// Seconds at the "to" end, the top byte of that word.
    pub wait: u32,
    pub twin: u32,
}

/// The bits of a walk's third word that are its length.
const LENGTH_BITS: u32 = 24;

/// Length and wait of a walk's third word.
#[inline]
pub fn apart(word: u32) -> (u32, u32) {
    (word & ((1 << LENGTH_BITS) - 1), word >> LENGTH_BITS)
}

impl Walk {
    #[inline]
    pub fn read(table: &[u8], index: usize) -> Self {
        let bytes = &table[index * WALK..][..WALK];
        let (length, wait) = apart(word(bytes, 8));
        Walk {
            from: word(bytes, 0),
            to: word(bytes, 4),
            length,
            wait,
            twin: word(bytes, 12),
        }
    }

    pub fn bytes(&self) -> [u8; WALK] {
        let both = self.wait << LENGTH_BITS | self.length;
        lay(&[self.from, self.to, both, self.twin])
    }
}

#[derive(Clone, Copy, Debug, PartialEq, Eq)]
pub struct Hop {
    pub from: u32,
    pub to: u32,
    pub departure: i32,
    pub arrival: i32,
}

/// The trip of a record of 20 bytes; 0 is unknown.
pub fn trip(table: &[u8], index: usize) -> u32 {
    word(table, index * TRIP_HOP + HOP)
}

impl Hop {
    /// From a table whose records have this size. What stands behind the 16
    /// bytes, the trip, is nothing to a journey.
    #[inline]
    pub fn read(table: &[u8], size: usize, index: usize) -> Self {
        let bytes = &table[index * size..][..HOP];
        Hop {
            from: word(bytes, 0),
            to: word(bytes, 4),
            departure: word(bytes, 8) as i32,
            arrival: word(bytes, 12) as i32,
        }
    }

    pub fn bytes(&self) -> [u8; HOP] {
        lay(&[
            self.from,
            self.to,
            self.departure as u32,
            self.arrival as u32,
        ])
    }
}

#[derive(Clone, Copy, Debug, PartialEq, Eq)]
pub struct Held {
    pub vertex: u32,
    pub distance: u32,
    pub state: u32,
    pub remaining: u32,
}

impl Held {
    pub fn read(table: &[u8], index: usize) -> Self {
        let at = index * HELD;
        Held {
            vertex: word(table, at),
            distance: word(table, at + 4),
            state: word(table, at + 8),
            remaining: word(table, at + 12),
        }
    }

    pub fn bytes(&self) -> [u8; HELD] {
        lay(&[self.vertex, self.distance, self.state, self.remaining])
    }
}

#[derive(Clone, Copy, Debug, PartialEq, Eq)]
pub struct Settled {
    pub vertex: u32,
    pub distance: u32,
}

impl Settled {
    pub fn read(table: &[u8], index: usize) -> Self {
        let at = index * SETTLED;
        Settled {
            vertex: word(table, at),
            distance: word(table, at + 4),
        }
    }

    pub fn bytes(&self) -> [u8; SETTLED] {
        lay(&[self.vertex, self.distance])
    }
}

/// An entry of a bought list: a settled record, and the record that a journey
/// from there starts with, walks numbered first, FFFFFFFF for a seed.
#[derive(Clone, Copy, Debug, PartialEq, Eq)]
pub struct Listed {
    pub vertex: u32,
    pub distance: u32,
    pub record: u32,
}

impl Listed {
    #[inline]
    pub fn read(table: &[u8], index: usize) -> Self {
        let bytes = &table[index * LISTED..][..LISTED];
        Listed {
            vertex: word(bytes, 0),
            distance: word(bytes, 4),
            record: word(bytes, 8),
        }
    }

    pub fn bytes(&self) -> [u8; LISTED] {
        lay(&[self.vertex, self.distance, self.record])
    }
}

#[derive(Clone, Copy, Debug, PartialEq, Eq)]
pub struct Part {
    pub record: u32,
    pub start: u32,
    pub end: u32,
}

impl Part {
    pub fn read(table: &[u8], index: usize) -> Self {
        let at = index * PART;
        Part {
            record: word(table, at),
            start: word(table, at + 4),
            end: word(table, at + 8),
        }
    }

    pub fn bytes(&self) -> [u8; PART] {
        lay(&[self.record, self.start, self.end])
    }
}

#[derive(Clone, Copy, Debug, PartialEq, Eq)]
pub struct Query {
    pub record: u32,
    pub offset: u32,
    pub arrival: i32,
    pub duration: u32,
    pub speed: u32,
}

/// A query among many.
#[derive(Clone, Copy, Debug, PartialEq, Eq)]
pub struct Asked {
    pub query: Query,
    pub limit: u32,
}

impl Asked {
    pub fn read(table: &[u8], index: usize) -> Self {
        let bytes = &table[index * ASKED..][..ASKED];
        Asked {
            query: Query {
                record: word(bytes, 0),
                offset: word(bytes, 4),
                arrival: word(bytes, 8) as i32,
                duration: word(bytes, 12),
                speed: word(bytes, 16),
            },
            limit: word(bytes, 20),
        }
    }

    pub fn bytes(&self) -> [u8; ASKED] {
        let q = self.query;
        let arrival = q.arrival as u32;
        lay(&[q.record, q.offset, arrival, q.duration, q.speed, self.limit])
    }
}

/// Arrivals one after the other: the query has the first.
#[derive(Clone, Copy, Debug, PartialEq, Eq)]
pub struct Evening {
    pub query: Query,
    /// Seconds from one arrival to the next.
    pub gap: u32,
    pub arrivals: u32,
}

/// The three tables as they are lent, and the size of a hop record as it is
/// named.
#[derive(Clone, Copy, Debug)]
pub struct Tables<'a> {
    pub vertices: &'a [u8],
    pub walks: &'a [u8],
    pub hops: &'a [u8],
    pub hop_size: u32,
}

/// Which way a hop table is moved.
#[derive(Clone, Copy, Debug, PartialEq, Eq)]
pub enum Way {
    /// From 16 bytes to 20.
    Forward,
    /// From 20 bytes to 16.
    Backward,
}

/// The two buffers lent to a run.
pub struct Lent<'a> {
    pub held: &'a mut [u8],
    pub settled: &'a mut [u8],
}

#[derive(Clone, Copy, Debug, PartialEq, Eq)]
pub struct Refusal {
    pub number: u32,
    pub place: u32,
}

impl Refusal {
    pub fn at(number: u32, place: usize) -> Self {
        Refusal {
            number,
            place: place as u32,
        }
    }
}

/// The six answers of a run, in the order of their bytes. The part count is 0
/// where the run writes no parts.
#[derive(Clone, Copy, Debug, Default, PartialEq, Eq)]
pub struct Answer {
    pub refusal: u32,
    pub place: u32,
    pub settled: u32,
    pub parts: u32,
    pub held: u32,
    pub finished: u32,
}

impl Answer {
    pub fn refused(refusal: Refusal) -> Self {
        Answer {
            refusal: refusal.number,
            place: refusal.place,
            ..Answer::default()
        }
    }

    pub fn read(bytes: &[u8]) -> Self {
        Answer {
            refusal: word(bytes, 0),
            place: word(bytes, 4),
            settled: word(bytes, 8),
            parts: word(bytes, 12),
            held: word(bytes, 16),
            finished: word(bytes, 20),
        }
    }

    pub fn bytes(&self) -> [u8; ANSWER] {
        lay(&[
            self.refusal,
            self.place,
            self.settled,
            self.parts,
            self.held,
            self.finished,
        ])
    }
}

/// The three answers of the parts operation, in the order of their bytes.
#[derive(Clone, Copy, Debug, Default, PartialEq, Eq)]
pub struct PartsAnswer {
    pub refusal: u32,
    pub place: u32,
    pub parts: u32,
}

impl PartsAnswer {
    pub fn refused(refusal: Refusal) -> Self {
        PartsAnswer {
            refusal: refusal.number,
            place: refusal.place,
            parts: 0,
        }
    }

    pub fn read(bytes: &[u8]) -> Self {
        PartsAnswer {
            refusal: word(bytes, 0),
            place: word(bytes, 4),
            parts: word(bytes, 8),
        }
    }

    pub fn bytes(&self) -> [u8; PARTS_ANSWER] {
        lay(&[self.refusal, self.place, self.parts])
    }
}
