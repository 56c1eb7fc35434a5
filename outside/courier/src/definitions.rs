//! The rows that the definitions are computed on (crates/journeys/specs/CourierCases), once more: what is proved of the definitions there,
//! both programs have to say as well.

use outside::network::{Network, Plan};
use outside::records::{word, Answer, PartsAnswer, Query, HELD, NONE, PART, SETTLED};

use crate::call::{Case, Kind, Outcome, Program};
use crate::marked::{case, words};

/// What a row shows of an outcome.
#[derive(Clone, Copy, Debug)]
pub enum View {
    /// Refusal, place, settled and held count, finished; of parts refusal, place, count.
    Numbers,
    /// The records that are counted.
    Settled,
    Held,
    Parts,
}

pub type Row = (Case, View, Vec<u32>);

fn records(bytes: &[u8], size: usize, count: u32) -> Vec<u32> {
    bytes[..size * count as usize].chunks(4).map(|chunk| word(chunk, 0)).collect()
}

impl View {
    pub fn of(self, case: &Case, after: &Outcome) -> Vec<u32> {
        if case.kind == Kind::Parts {
            let three = PartsAnswer::read(&after.answer);
            return match self {
                View::Parts => records(&after.parts, PART, three.parts),
                _ => vec![three.refusal, three.place, three.parts],
            };
        }
        let six = Answer::read(&after.answer);
        match self {
            View::Settled => records(&after.settled, SETTLED, six.settled),
            View::Held => records(&after.held, HELD, six.held),
            _ => vec![six.refusal, six.place, six.settled, six.held, six.finished],
        }
    }
}

/// The base job with its ride from 1 to 3, at 36,100 there.
fn turned(departure: i32) -> Network {
    let mut plan = Plan { vertices: 5, ..Plan::default() };
    plan.road(1, 0, 2_000);
    plan.road(2, 1, 2_500);
    plan.road(4, 3, 900);
    plan.hop(1, 3, departure, 36_100);
    plan.build()
}

const RIGHT: [u32; 7] = [1, 0, 3, 6, 2, 5, 4];

fn ask(record: u32, offset: u32, duration: u32) -> Query {
    Query { record, offset, arrival: 36_000, duration, speed: 10 }
}

/// A row of a run.
fn sent(network: &Network, list: &[u32], query: Query, limit: u32, view: View, want: &[u32]) -> Row {
    (Case { list: words(list), ..case(Kind::Run, network, query, limit) }, view, want.to_vec())
}

/// A row of the parts of a finished run's own list, which a program makes first.
fn reaches(network: &Network, list: &[u32], room: usize, query: Query, view: View, want: &[u32], program: &impl Program) -> Row {
    let run = Case { list: words(list), ..case(Kind::Run, network, query, NONE) };
    let after = run.by(program);
    let entries = after.settled[..SETTLED * Answer::read(&after.answer).settled as usize].to_vec();
    (Case { list: words(list), entries, parts: vec![7; PART * room], ..case(Kind::Parts, network, query, NONE) }, view, want.to_vec())
}

/// All rows, with the lists of settled vertices that this program makes.
pub fn all(program: &impl Program) -> Vec<Row> {
    let mut all = runs(program);
    all.extend(seeds(program));
    all.extend(refusals(program));
    all
}

fn runs(program: &impl Program) -> Vec<Row> {
    let (base, late) = (turned(36_050), turned(36_049));
    let run = |duration: u32, limit: u32, view: View, want: &[u32]| sent(&base, &RIGHT, ask(1, 1_500, duration), limit, view, want);
    let parts = |room: usize, duration: u32, view: View, want: &[u32]| reaches(&base, &RIGHT, room, ask(1, 1_500, duration), view, want, program);
    vec![
        run(300, NONE, View::Numbers, &[0, 0, 5, 0, 1]),
        run(300, NONE, View::Settled, &[1, 500, 3, 1_000, 0, 1_500, 4, 1_900, 2, 3_000]),
        run(300, 0, View::Held, &[0, 1_500, 0, 1, 1, 500, 0, 2]),
        run(300, 1, View::Held, &[0, 1_500, 0, 0, 1, 500, 1, 2, 2, 3_000, 0, 0, 3, 1_000, 0, 1]),
        run(300, 2, View::Held, &[0, 1_500, 0, 0, 1, 500, 1, 2, 2, 3_000, 0, 0, 3, 1_000, 1, 1, 4, 1_900, 0, 0]),
        run(300, 3, View::Held, &[1, 500, 1, 1, 2, 3_000, 0, 0, 3, 1_000, 1, 1, 4, 1_900, 0, 0]),
        run(300, 4, View::Held, &[1, 500, 1, 1, 2, 3_000, 0, 0]),
        parts(20, 300, View::Parts, &[1, 1_500, 2_000, 0, 500, 2_000, 0, 0, 500, 3, 0, 2_500, 5, 0, 900, 1, 0, 1_500, 4, 0, 900]),
        parts(6, 300, View::Numbers, &[10, 4, 0]),
        parts(20, 20, View::Parts, &[1, 1_500, 1_700, 0, 500, 700]),
        run(299, 1, View::Held, &[0, 1_500, 0, 0, 1, 500, 1, 2, 3, 1_000, 0, 1]),
        parts(20, 299, View::Parts, &[1, 1_500, 2_000, 0, 500, 2_000, 0, 0, 500, 3, 0, 2_490, 5, 0, 900, 1, 0, 1_490, 4, 0, 900]),
        sent(&late, &RIGHT, ask(1, 1_500, 300), NONE, View::Settled, &[1, 500, 0, 1_500, 2, 3_000]),
        sent(&late, &RIGHT, ask(1, 1_500, 300), 1, View::Held, &[0, 1_500, 0, 0, 1, 500, 1, 2, 2, 3_000, 0, 0, 3, NONE, 0, 1]),
    ]
}

fn seeds(program: &impl Program) -> Vec<Row> {
    let base = turned(36_050);
    let mut single = base.clone();
    (single.walks[4].twin, single.walks[5].twin) = (NONE, NONE);
    let mut lit = base.clone();
    (lit.walks[1].wait, lit.walks[0].wait) = (30, 7);
    let mut crossed = base;
    crossed.walks[3].wait = 120;
    let rides = |second: i32| {
        let mut plan = Plan { vertices: 6, ..Plan::default() };
        plan.one_way(1, 5, 1_000);
        plan.hop(5, 0, second, second);
        plan.hop(0, 4, 36_000, 36_000);
        plan.build()
    };
    let held = |network: &Network, record: u32, offset: u32, want: &[u32]| sent(network, &RIGHT, ask(record, offset, 300), 0, View::Held, want);
    let parts = |network: &Network, query: Query, want: &[u32]| reaches(network, &RIGHT, 20, query, View::Parts, want, program);
    let moments = |second: i32, limit: u32, view: View, want: &[u32]| sent(&rides(second), &[2, 0, 1], ask(0, 1_000, 300), limit, view, want);
    vec![
        held(&single, 5, 0, &[3, 0, 0, 2, 4, 900, 0, 1]),
        held(&single, 5, 1, &[4, 899, 0, 1]),
        held(&single, 5, 900, &[4, 0, 0, 1]),
        parts(&single, ask(5, 0, 300), &[5, 0, 900, 4, 0, 900]),
        parts(&single, ask(5, 450, 300), &[5, 450, 900, 4, 0, 900, 5, 0, 450]),
        held(&lit, 1, 1_500, &[0, 1_570, 0, 1, 1, 800, 0, 2]),
        held(&lit, 1, 2_000, &[0, 2_070, 0, 1, 1, 0, 0, 2]),
        held(&lit, 1, 1_999, &[0, 2_069, 0, 1, 1, 301, 0, 2]),
        held(&lit, 1, 1, &[0, 71, 0, 1, 1, 2_299, 0, 2]),
        held(&lit, 1, 0, &[0, 0, 0, 1, 1, 2_300, 0, 2]),
        parts(&lit, ask(1, 1_500, 300), &[1, 1_500, 2_000, 0, 500, 2_000, 0, 0, 500, 3, 0, 2_200, 1, 0, 1_430]),
        sent(&crossed, &RIGHT, ask(1, 1_500, 419), NONE, View::Settled, &[1, 500, 3, 1_000, 0, 1_500, 4, 1_900]),
        sent(&crossed, &RIGHT, ask(1, 1_500, 420), NONE, View::Settled, &[1, 500, 3, 1_000, 0, 1_500, 4, 1_900, 2, 4_200]),
        parts(&crossed, ask(1, 1_500, 350), &[1, 1_500, 2_000, 0, 500, 2_000, 0, 0, 500, 3, 0, 2_500, 5, 0, 900, 1, 0, 1_500, 4, 0, 900]),
        moments(36_000, NONE, View::Settled, &[5, 0, 0, 0, 4, 0]),
        moments(36_000, 1, View::Held, &[0, 0, 0, 0, 5, 0, 1, 1]),
        moments(35_999, NONE, View::Settled, &[5, 0]),
    ]
}

fn refusals(program: &impl Program) -> Vec<Row> {
    let base = turned(36_050);
    let mut bad = base.clone();
    bad.vertices[4].first_walk = 6;
    let exchanged = [1, 0, 6, 3, 2, 5, 4];
    let run = |network: &Network, list: &[u32], offset: u32, want: [u32; 2]| {
        sent(network, list, ask(1, offset, 300), NONE, View::Numbers, &[want[0], want[1], 0, 0, 0])
    };
    vec![
        run(&base, &RIGHT[..6], 1_500, [1, 6]),
        run(&base, &[1, 0, 3, 6, 2, 5, 4, 4], 1_500, [1, 6]),
        run(&base, &exchanged, 1_500, [22, 2]),
        run(&base, &[1, 0, 3, 6, 2, 5, 7], 2_001, [22, 6]),
        run(&bad, &exchanged, 1_500, [6, 4]),
        run(&base, &RIGHT, 2_001, [7, 1]),
        reaches(&base, &exchanged, 20, ask(1, 1_500, 300), View::Numbers, &[22, 2, 0], program),
    ]
}
