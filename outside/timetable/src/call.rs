//! What a call gets and what it leaves behind.

use std::fmt;

/// The bytes of a hop with its trip, the most records of a target, the bytes of an answer.
pub const HOP: usize = 20;
pub const MOST_HOPS: usize = 262_144;
pub const ANSWER: usize = 12;

#[derive(Clone)]
pub struct Case {
    pub stop_times: Vec<u8>,
    pub stops: Vec<u8>,
    pub trips: Vec<u8>,
    /// The target and the answer as they are before the call.
    pub hops: Vec<u8>,
    pub answer: Vec<u8>,
    /// An empty slice is passed as NULL.
    pub null: bool,
}

#[derive(Clone, PartialEq, Eq)]
pub struct Outcome {
    pub value: u32,
    pub hops: Vec<u8>,
    pub answer: Vec<u8>,
}

/// The number and the place of a refusal.
pub type Refusal = (u32, u32);

#[derive(Clone, Copy, Debug, PartialEq, Eq)]
pub struct Hop {
    pub from: u32,
    pub to: u32,
    pub departure: u32,
    pub arrival: u32,
    pub trip: u32,
}

impl Hop {
    pub fn fields(&self) -> [u32; 5] {
        [self.from, self.to, self.departure, self.arrival, self.trip]
    }
}

pub fn words(numbers: &[u32]) -> Vec<u8> {
    numbers.iter().flat_map(|n| n.to_be_bytes()).collect()
}

impl Case {
    /// A call with so many records of old bytes in its target.
    pub fn new(stop_times: &[u8], stops: &[u8], trips: &[u8], room: usize) -> Self {
        Case {
            stop_times: stop_times.to_vec(),
            stops: stops.to_vec(),
            trips: trips.to_vec(),
            hops: vec![0xa5; HOP * room],
            answer: vec![0x5a; ANSWER],
            null: false,
        }
    }

    /// What is left where the call returns 0 and answers this.
    pub fn left(&self, answered: &Result<Vec<Hop>, Refusal>) -> Outcome {
        let mut hops: Vec<u8> = answered.iter().flatten().flat_map(|hop| words(&hop.fields())).collect();
        hops.resize(self.hops.len(), 0);
        let answer = match answered {
            Ok(made) => words(&[0, 0, made.len() as u32]),
            Err((number, place)) => words(&[*number, *place, 0]),
        };
        match answered {
            Err((1, _)) => Outcome { value: 0, hops: self.hops.clone(), answer },
            _ => Outcome { value: 0, hops, answer },
        }
    }
}

/// A text as Rust writes it, or how long it is.
fn text(bytes: &[u8]) -> String {
    match bytes.len() {
        0..=4_000 => format!("\"{}\"", bytes.escape_ascii()),
        len => format!("{len} bytes that begin with \"{}\"", bytes[..200].escape_ascii()),
    }
}

impl fmt::Debug for Case {
    fn fmt(&self, f: &mut fmt::Formatter) -> fmt::Result {
        writeln!(f, "stop times {}", text(&self.stop_times))?;
        writeln!(f, "stops {}", text(&self.stops))?;
        writeln!(f, "trips {}", text(&self.trips))?;
        write!(f, "target of {} bytes, answer of {}", self.hops.len(), self.answer.len())
    }
}

impl fmt::Debug for Outcome {
    fn fmt(&self, f: &mut fmt::Formatter) -> fmt::Result {
        let numbers = |bytes: &[u8]| -> Vec<u32> { bytes.chunks(4).map(|b| b.iter().fold(0, |n, x| n << 8 | u32::from(*x))).collect() };
        writeln!(f, "returned {}, answer {:?}", self.value, numbers(&self.answer))?;
        for hop in self.hops.chunks(HOP).take(40) {
            writeln!(f, "  {:?}", numbers(hop))?;
        }
        Ok(())
    }
}
