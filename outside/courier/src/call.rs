//! One call of the courier and what it leaves behind.

use outside::records::{Answer, Lent, PartsAnswer, Query, Tables, ANSWER, PARTS_ANSWER};

#[derive(Clone, Copy, Debug, PartialEq, Eq)]
pub enum Kind {
    /// The list is made.
    List,
    /// Settled and held.
    Run,
    /// The parts of a settled list.
    Parts,
}

/// A program with the three calls. In a query the arrival is the departure.
pub trait Program {
    fn list(&self, tables: Tables, list: &mut [u8]) -> u64;

    fn run(&self, tables: Tables, list: &[u8], query: Query, limit: u32, lent: Lent, answer: &mut [u8]) -> u32;

    fn parts(&self, tables: Tables, list: &[u8], query: Query, entries: &[u8], parts: &mut [u8], answer: &mut [u8]) -> u32;
}

/// All arguments of a call, the buffers as they are lent.
#[derive(Clone, Debug)]
pub struct Case {
    pub kind: Kind,
    /// Empty slices go in as NULL.
    pub null: bool,
    pub vertices: Vec<u8>,
    pub walks: Vec<u8>,
    pub hops: Vec<u8>,
    pub hop_size: u32,
    /// The record numbers by "from": written where the list is made, otherwise read.
    pub list: Vec<u8>,
    pub query: Query,
    pub limit: u32,
    pub held: Vec<u8>,
    pub settled: Vec<u8>,
    /// The settled list whose parts are asked for.
    pub entries: Vec<u8>,
    pub parts: Vec<u8>,
    pub answer: Vec<u8>,
}

/// What came back, with every byte of the slices that may be written.
#[derive(Clone, Debug, PartialEq, Eq)]
pub struct Outcome {
    pub value: u64,
    pub list: Vec<u8>,
    pub held: Vec<u8>,
    pub settled: Vec<u8>,
    pub parts: Vec<u8>,
    pub answer: Vec<u8>,
}

impl Case {
    pub fn tables(&self) -> Tables<'_> {
        Tables { vertices: &self.vertices, walks: &self.walks, hops: &self.hops, hop_size: self.hop_size }
    }

    /// The slices as they are before the call; those that it does not have, or only reads, are empty.
    pub fn before(&self) -> Outcome {
        let own = |kind: Kind, bytes: &Vec<u8>| if self.kind == kind { bytes.clone() } else { Vec::new() };
        Outcome {
            value: 0,
            list: own(Kind::List, &self.list),
            held: own(Kind::Run, &self.held),
            settled: own(Kind::Run, &self.settled),
            parts: own(Kind::Parts, &self.parts),
            answer: if self.kind == Kind::List { Vec::new() } else { self.answer.clone() },
        }
    }

    /// Makes the call on copies of the lent slices.
    pub fn by<P: Program>(&self, program: &P) -> Outcome {
        let mut after = self.before();
        after.value = self.call_in(program, &mut after);
        after
    }

    /// Makes the call in these buffers and tells what it returned.
    pub fn call_in<P: Program>(&self, program: &P, after: &mut Outcome) -> u64 {
        let (tables, list) = (self.tables(), &self.list);
        match self.kind {
            Kind::List => program.list(tables, &mut after.list),
            Kind::Run => {
                let lent = Lent { held: &mut after.held, settled: &mut after.settled };
                program.run(tables, list, self.query, self.limit, lent, &mut after.answer).into()
            }
            Kind::Parts => program.parts(tables, list, self.query, &self.entries, &mut after.parts, &mut after.answer).into(),
        }
    }

    /// Refusal and place; none where the answer slice is not filled.
    pub fn refusal(&self, after: &Outcome) -> Option<(u32, u32)> {
        match self.kind {
            Kind::List => Some(((after.value >> 32) as u32, after.value as u32)),
            Kind::Run if after.value == 0 => Some(Answer::read(&after.answer)).map(|six| (six.refusal, six.place)),
            Kind::Parts if after.value == 0 => Some(PartsAnswer::read(&after.answer)).map(|three| (three.refusal, three.place)),
            _ => None,
        }
    }

    /// Whether every step can be looked at from scratch in a fair time.
    pub fn small(&self) -> bool {
        self.vertices.len() <= 12 * 600 && self.walks.len() + self.hops.len() <= 16 * 4_000
    }
}

/// The bytes of the answer of a kind of call.
pub fn answer_size(kind: Kind) -> usize {
    match kind {
        Kind::List => 0,
        Kind::Run => ANSWER,
        Kind::Parts => PARTS_ANSWER,
    }
}
