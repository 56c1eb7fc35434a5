//! One call of the run with a boarding time and what it leaves behind.

use outside::records::{Answer, Query, Tables};

/// What is lent to be written, beside the answer.
pub struct Lent<'a> {
    pub settled: &'a mut [u8],
    pub scratch: &'a mut [u8],
}

/// A program with the call; boarding is in seconds.
pub trait Program {
    fn run(&self, tables: Tables, query: Query, boarding: u32, limit: u32, lent: Lent, answer: &mut [u8]) -> u32;
}

/// All arguments of a call, the buffers as they are lent.
#[derive(Clone, Debug)]
pub struct Case {
    /// Empty slices go in as NULL.
    pub null: bool,
    pub vertices: Vec<u8>,
    pub walks: Vec<u8>,
    pub hops: Vec<u8>,
    pub hop_size: u32,
    pub query: Query,
    pub boarding: u32,
    pub limit: u32,
    pub settled: Vec<u8>,
    pub scratch: Vec<u8>,
    pub answer: Vec<u8>,
}

/// What came back, with every byte of the slices that may be written.
#[derive(Clone, Debug, PartialEq, Eq)]
pub struct Outcome {
    pub value: u32,
    pub settled: Vec<u8>,
    pub scratch: Vec<u8>,
    pub answer: Vec<u8>,
}

impl Case {
    pub fn tables(&self) -> Tables<'_> {
        Tables { vertices: &self.vertices, walks: &self.walks, hops: &self.hops, hop_size: self.hop_size }
    }

    /// The slices as they are before the call.
    pub fn before(&self) -> Outcome {
        Outcome { value: 0, settled: self.settled.clone(), scratch: self.scratch.clone(), answer: self.answer.clone() }
    }

    /// Makes the call on copies of the lent slices.
    pub fn by<P: Program>(&self, program: &P) -> Outcome {
        let mut after = self.before();
        after.value = self.call_in(program, &mut after);
        after
    }

    /// Makes the call in these buffers and tells what it returned.
    pub fn call_in<P: Program>(&self, program: &P, after: &mut Outcome) -> u32 {
        let lent = Lent { settled: &mut after.settled, scratch: &mut after.scratch };
        program.run(self.tables(), self.query, self.boarding, self.limit, lent, &mut after.answer)
    }

    /// The six answers; none where the answer slice is not filled.
    pub fn answered(&self, after: &Outcome) -> Option<Answer> {
        (after.value == 0).then(|| Answer::read(&after.answer))
    }

    pub fn refusal(&self, after: &Outcome) -> Option<(u32, u32)> {
        self.answered(after).map(|six| (six.refusal, six.place))
    }

    /// Whether all rides can be looked at in a fair time.
    pub fn small(&self) -> bool {
        self.vertices.len() <= 12 * 600 && self.walks.len() <= 16 * 3_000 && self.hops.len() <= 16 * 1_500
    }
}
