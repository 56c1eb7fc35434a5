//! One call and what it leaves behind.

use crate::fast;
use crate::mutant::Fault;
use crate::records::{Answer, Evening, Lent, PartsAnswer, Query, Tables, Way, ANSWER, SETTLED};
use crate::slow;

#[derive(Clone, Copy, Debug, PartialEq, Eq)]
pub enum Call {
    Check,
    Run,
    Parts,
    /// A run and, where it is accepted, the parts of its own list.
    Pair,
    /// The hop table is the source.
    Move(Way),
    /// A bought list.
    Judge,
    /// Many queries.
    Runs,
    /// The patients of an evening.
    Patients,
}

impl Call {
    /// Whether the call is one run, with or without the parts of its list.
    pub fn runs(self) -> bool {
        matches!(self, Call::Run | Call::Pair)
    }

    /// Whether held, settled and an answer slice are lent.
    pub fn searches(self) -> bool {
        self.runs() || matches!(self, Call::Runs | Call::Patients)
    }

    /// Whether one query is given.
    pub fn takes_query(self) -> bool {
        !matches!(self, Call::Check | Call::Move(_) | Call::Runs)
    }

    /// Whether the three tables are lent.
    pub fn takes_tables(self) -> bool {
        !matches!(self, Call::Move(_))
    }

    /// Whether the value returned tells refusal and place.
    pub fn returns_refusal(self) -> bool {
        matches!(self, Call::Check | Call::Move(_) | Call::Judge)
    }

    /// Whether a list is lent.
    pub fn takes_list(self) -> bool {
        matches!(self, Call::Parts | Call::Judge)
    }

    /// Whether parts can be asked for.
    pub fn parts(self) -> bool {
        matches!(self, Call::Parts | Call::Pair)
    }
}

/// A program with the calls of the library.
pub trait Program {
    fn check(&self, tables: Tables) -> u64;

    fn run(&self, tables: Tables, query: Query, limit: u32, lent: Lent, answer: &mut [u8]) -> u32;

    fn parts(
        &self,
        tables: Tables,
        query: Query,
        list: &[u8],
        parts: &mut [u8],
        answer: &mut [u8],
    ) -> u32;

    fn move_hops(&self, way: Way, source: &[u8], target: &mut [u8]) -> u64;

    /// Judges a bought list.
    fn judge(&self, tables: Tables, query: Query, list: &[u8]) -> u64;

    /// A run for each of many queries, each with its share of the settled buffer.
    fn runs(&self, tables: Tables, queries: &[u8], lent: Lent, answers: &mut [u8]) -> u32;

    /// Runs for several arrivals, and whom they reach.
    fn patients(
        &self,
        tables: Tables,
        evening: Evening,
        patients: &[u8],
        lent: Lent,
        report: &mut [u8],
        answer: &mut [u8],
    ) -> u32;

    /// The run, then the parts of the list that it wrote: as many bytes as its
    /// settled count tells, not the zeros behind them. Where the run writes no
    /// list, parts are not asked for.
    fn pair(&self, case: &Case, after: &mut Outcome) -> [u32; 2] {
        let (tables, query) = (case.tables(), case.query);
        let lent = Lent {
            held: &mut after.held,
            settled: &mut after.settled,
        };
        let run = self.run(tables, query, case.limit, lent, &mut after.answer);
        let Some(list) = own_list(run, &after.answer, &after.settled) else {
            return [run, 0];
        };
        let (parts, answer) = (&mut after.parts, &mut after.parts_answer);
        [run, self.parts(tables, query, list, parts, answer)]
    }
}

/// The list of an accepted run in its settled buffer.
fn own_list<'a>(returned: u32, answer: &[u8], settled: &'a [u8]) -> Option<&'a [u8]> {
    if returned != 0 || answer.len() != ANSWER {
        return None;
    }
    let six = Answer::read(answer);
    let list = settled.get(..six.settled as usize * SETTLED);
    list.filter(|_| six.refusal == 0)
}

/// The fast program, or a wrong version of it.
pub struct Fast<F>(pub F);

impl<F: Fault> Program for Fast<F> {
    fn check(&self, tables: Tables) -> u64 {
        fast::call_check(tables, self.0)
    }

    fn run(&self, tables: Tables, query: Query, limit: u32, lent: Lent, answer: &mut [u8]) -> u32 {
        fast::call_run(tables, query, limit, lent, answer, self.0)
    }

    fn parts(
        &self,
        tables: Tables,
        query: Query,
        list: &[u8],
        parts: &mut [u8],
        answer: &mut [u8],
    ) -> u32 {
        fast::call_parts(tables, query, list, parts, answer, self.0)
    }

    fn move_hops(&self, way: Way, source: &[u8], target: &mut [u8]) -> u64 {
        fast::call_move(way, source, target, self.0)
    }

    fn judge(&self, tables: Tables, query: Query, list: &[u8]) -> u64 {
        fast::call_judge(tables, query, list, self.0)
    }

    fn runs(&self, tables: Tables, queries: &[u8], lent: Lent, answers: &mut [u8]) -> u32 {
        fast::call_runs(tables, queries, lent, answers, self.0)
    }

    fn patients(
        &self,
        tables: Tables,
        evening: Evening,
        patients: &[u8],
        lent: Lent,
        report: &mut [u8],
        answer: &mut [u8],
    ) -> u32 {
        fast::call_patients(tables, evening, patients, lent, report, answer, self.0)
    }
}

/// The program that takes every answer from the definitions.
pub struct Slow;

impl Program for Slow {
    fn check(&self, tables: Tables) -> u64 {
        slow::call_check(tables)
    }

    fn run(&self, tables: Tables, query: Query, limit: u32, lent: Lent, answer: &mut [u8]) -> u32 {
        slow::call_run(tables, query, limit, lent, answer)
    }

    fn parts(
        &self,
        tables: Tables,
        query: Query,
        list: &[u8],
        parts: &mut [u8],
        answer: &mut [u8],
    ) -> u32 {
        slow::call_parts(tables, query, list, parts, answer)
    }

    fn move_hops(&self, way: Way, source: &[u8], target: &mut [u8]) -> u64 {
        slow::call_move(way, source, target)
    }

    fn judge(&self, tables: Tables, query: Query, list: &[u8]) -> u64 {
        slow::call_judge(tables, query, list)
    }

    fn runs(&self, tables: Tables, queries: &[u8], lent: Lent, answers: &mut [u8]) -> u32 {
        slow::call_runs(tables, queries, lent, answers)
    }

    fn patients(
        &self,
        tables: Tables,
        evening: Evening,
        patients: &[u8],
        lent: Lent,
        report: &mut [u8],
        answer: &mut [u8],
    ) -> u32 {
        slow::call_patients(tables, evening, patients, lent, report, answer)
    }
}

/// One call of the library: all its arguments, the buffers as they are lent.
#[derive(Clone, Debug)]
pub struct Case {
    pub call: Call,
    /// Empty slices go in as NULL.
    pub null: bool,
    pub vertices: Vec<u8>,
    pub walks: Vec<u8>,
    /// Of a move the source.
    pub hops: Vec<u8>,
    pub hop_size: u32,
    pub query: Query,
    pub limit: u32,
    /// The records of many queries.
    pub queries: Vec<u8>,
    /// Of an evening; the query has its first arrival.
    pub gap: u32,
    pub arrivals: u32,
    /// A count for each vertex.
    pub patients: Vec<u8>,
    pub held: Vec<u8>,
    pub settled: Vec<u8>,
    /// The settled list of the parts operation, or a bought list.
    pub list: Vec<u8>,
    pub parts: Vec<u8>,
    pub answer: Vec<u8>,
    /// The answer slice of the parts operation.
    pub parts_answer: Vec<u8>,
    /// What a move writes to.
    pub target: Vec<u8>,
    /// Whom an evening reaches.
    pub report: Vec<u8>,
}

/// What came back, with every byte of the slices that may be written.
#[derive(Clone, Debug, PartialEq, Eq)]
pub struct Outcome {
    /// What the call returned; of a pair the run's in the upper half, and in
    /// the lower that of the parts.
    pub returned: u64,
    pub held: Vec<u8>,
    pub settled: Vec<u8>,
    pub parts: Vec<u8>,
    pub answer: Vec<u8>,
    pub parts_answer: Vec<u8>,
    pub target: Vec<u8>,
    pub report: Vec<u8>,
}

impl Case {
    pub fn evening(&self) -> Evening {
        Evening {
            query: self.query,
            gap: self.gap,
            arrivals: self.arrivals,
        }
    }

    pub fn tables(&self) -> Tables<'_> {
        Tables {
            vertices: &self.vertices,
            walks: &self.walks,
            hops: &self.hops,
            hop_size: self.hop_size,
        }
    }

    pub fn fast<F: Fault>(&self, fault: F) -> Outcome {
        self.by(&Fast(fault))
    }

    pub fn slow(&self) -> Outcome {
        self.by(&Slow)
    }

    /// Makes the call on copies of the lent slices.
    pub fn by<P: Program>(&self, program: &P) -> Outcome {
        let mut after = self.before();
        after.returned = self.call_in(program, &mut after);
        after
    }

    /// The lent slices as they are before the call.
    pub fn before(&self) -> Outcome {
        Outcome {
            returned: 0,
            held: self.held.clone(),
            settled: self.settled.clone(),
            parts: self.parts.clone(),
            answer: self.answer.clone(),
            parts_answer: self.parts_answer.clone(),
            target: self.target.clone(),
            report: self.report.clone(),
        }
    }

    /// Makes the call in these buffers and tells what it returned.
    pub fn call_in<P: Program>(&self, program: &P, after: &mut Outcome) -> u64 {
        let (tables, query) = (self.tables(), self.query);
        match self.call {
            Call::Check => program.check(tables),
            Call::Run => {
                let lent = Lent {
                    held: &mut after.held,
                    settled: &mut after.settled,
                };
                let answer = &mut after.answer;
                u64::from(program.run(tables, query, self.limit, lent, answer))
            }
            Call::Parts => {
                let (parts, answer) = (&mut after.parts, &mut after.parts_answer);
                u64::from(program.parts(tables, query, &self.list, parts, answer))
            }
            Call::Pair => {
                let [run, parts] = program.pair(self, after).map(u64::from);
                run << 32 | parts
            }
            Call::Move(way) => program.move_hops(way, &self.hops, &mut after.target),
            Call::Judge => program.judge(tables, query, &self.list),
            Call::Runs => {
                let lent = Lent {
                    held: &mut after.held,
                    settled: &mut after.settled,
                };
                let answers = &mut after.answer;
                u64::from(program.runs(tables, &self.queries, lent, answers))
            }
            Call::Patients => {
                let lent = Lent {
                    held: &mut after.held,
                    settled: &mut after.settled,
                };
                let (report, answer) = (&mut after.report, &mut after.answer);
                let (evening, patients) = (self.evening(), &self.patients);
                u64::from(program.patients(tables, evening, patients, lent, report, answer))
            }
        }
    }

    /// The refusal and place that the call answers; of a pair the run's, and
    /// where that is accepted, that of the parts; of many queries the first one's.
    pub fn refusal(&self, after: &Outcome) -> (u32, u32) {
        let run = || {
            let six = Answer::read(&after.answer);
            (six.refusal, six.place)
        };
        let parts = || {
            let three = PartsAnswer::read(&after.parts_answer);
            (three.refusal, three.place)
        };
        match self.call {
            Call::Check | Call::Move(_) | Call::Judge => {
                ((after.returned >> 32) as u32, after.returned as u32)
            }
            Call::Runs if after.answer.is_empty() => (0, 0),
            Call::Run | Call::Runs | Call::Patients => run(),
            Call::Parts => parts(),
            Call::Pair if run().0 != 0 => run(),
            Call::Pair => parts(),
        }
    }

    /// Whether `slow` can look at every step in a fair time.
    pub fn small(&self) -> bool {
        self.vertices.len() <= 12 * 600
    }
}
