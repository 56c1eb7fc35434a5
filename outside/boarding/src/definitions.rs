//! The rows that the definitions of `crates/boarding` are computed on, once more: what is proved of them there, both programs say. Data alone is taken over.

use outside::network::Plan;
use outside::records::{word, Answer, Query, SETTLED};

use crate::call::{Case, Outcome};
use crate::cases::{planned, Ground};

/// What a row looks at.
#[derive(Clone, Copy)]
pub enum View {
    /// The six answers.
    Numbers,
    /// Vertex and distance, as many as are counted.
    Settled,
    /// Every byte of both buffers.
    Left,
}

impl View {
    pub fn of(self, after: &Outcome) -> Vec<u32> {
        match self {
            View::Numbers => (0..6).map(|i| word(&after.answer, 4 * i)).collect(),
            View::Settled => (0..2 * Answer::read(&after.answer).settled as usize).map(|i| word(&after.settled, 4 * i)).collect(),
            View::Left => after.settled.iter().chain(&after.scratch).map(|&byte| byte.into()).collect(),
        }
    }
}

pub type Row = (Case, View, Vec<u32>);

type Hops<'a> = &'a [(usize, usize, i32, i32, u32)];

const NO_LIMIT: u32 = u32::MAX;

fn ask(offset: u32, duration: u32) -> Query {
    Query { record: 0, offset, arrival: 36_000, duration, speed: 10 }
}

/// One walk and some hops, room for so many settled vertices, a scratch of so many bytes, none of it clean.
fn lent(ground: &Ground, room: usize, scratch: usize, boarding: u32, limit: u32) -> Case {
    Case { boarding, limit, settled: vec![7; SETTLED * room], scratch: vec![7; scratch], ..ground.roomy() }
}

fn ground(vertices: usize, walk: (usize, usize, u32), hops: Hops, query: Query) -> Ground {
    let mut plan = Plan { vertices, ..Plan::default() };
    plan.one_way(walk.0, walk.1, walk.2);
    planned(plan, hops, query, 0)
}

/// 0 rides to 1 and 1 to the place, vertex 2, to which 3 walks.
fn line(arrival: i32, departure: i32, last: i32, trips: [u32; 2], query: Query) -> Ground {
    ground(4, (3, 2, 1_000), &[(0, 1, 35_900, arrival, trips[0]), (1, 2, departure, last, trips[1])], query)
}

fn usual(query: Query) -> Ground {
    line(35_940, 35_950, 35_990, [7, 7], query)
}

pub fn all() -> Vec<Row> {
    let mut all = runs();
    all.extend(moments());
    all.extend(refusals());
    all
}

fn runs() -> Vec<Row> {
    use View::{Numbers, Settled};
    let on = |ground: &Ground, boarding: u32, limit: u32, view: View, want: &[u32]| (lent(ground, 4, 8, boarding, limit), view, want.to_vec());
    let own = usual(ask(1_000, 300));
    let near = |boarding: u32, want: &[u32]| on(&own, boarding, NO_LIMIT, Settled, want);
    let within = |duration: u32, boarding: u32, want: &[u32]| on(&usual(ask(1_000, duration)), boarding, NO_LIMIT, Settled, want);
    let by = |trips: [u32; 2], boarding: u32, want: &[u32]| on(&line(35_940, 35_950, 35_990, trips, ask(1_000, 300)), boarding, NO_LIMIT, Settled, want);
    let at = |departure: i32, last: i32, want: &[u32]| on(&line(35_940, departure, last, [7, 7], ask(1_000, 300)), 60, NO_LIMIT, Settled, want);
    let mut short = line(35_940, 35_950, 35_990, [7, 7], ask(1_000, 300));
    short.bytes = short.ridden.bytes(false);
    vec![
        near(60, &[2, 0, 3, 1_000, 1, 1_100, 0, 1_600]),
        near(0, &[2, 0, 1, 500, 0, 1_000, 3, 1_000]),
        near(600, &[2, 0, 3, 1_000]),
        within(800, 600, &[2, 0, 3, 1_000, 1, 6_500, 0, 7_000]),
        on(&own, 60, NO_LIMIT, Numbers, &[0, 0, 4, 0, 0, 1]),
        on(&own, 60, 2, Numbers, &[0, 0, 2, 0, 0, 0]),
        on(&own, 60, 2, Settled, &[2, 0, 3, 1_000]),
        within(160, 60, &[2, 0, 3, 1_000, 1, 1_100, 0, 1_600]),
        within(159, 60, &[2, 0, 3, 1_000, 1, 1_100]),
        by([0, 0], 10, &[2, 0, 1, 600, 3, 1_000, 0, 1_100]),
        by([0, 0], 11, &[2, 0, 1, 610, 3, 1_000]),
        by([7, 8], 10, &[2, 0, 1, 600, 3, 1_000, 0, 1_100]),
        by([7, 8], 11, &[2, 0, 1, 610, 3, 1_000]),
        on(&short, 11, NO_LIMIT, Settled, &[2, 0, 1, 610, 3, 1_000]),
        at(35_940, 35_990, &[2, 0, 3, 1_000, 1, 1_200, 0, 1_600]),
        at(35_939, 35_990, &[2, 0, 3, 1_000, 1, 1_210]),
        at(35_950, 36_000, &[2, 0, 3, 1_000, 1, 1_100, 0, 1_600]),
        at(35_950, 36_001, &[2, 0, 3, 1_000]),
    ]
}

/// Several vehicles, rides of no minutes, circles, stops in any order.
fn moments() -> Vec<Row> {
    let query = ask(1_000, 300);
    let on = |ground: &Ground, boarding: u32, want: &[u32]| (Case { boarding, ..ground.roomy() }, View::Settled, want.to_vec());
    let vehicles = ground(4, (3, 2, 1_000), &[(0, 1, 35_900, 35_940, 7), (1, 2, 35_930, 35_950, 7), (1, 2, 35_945, 35_990, 7)], query);
    let at_once = |trip: u32| ground(4, (3, 2, 1_000), &[(0, 1, 35_980, 35_980, trip), (1, 2, 35_980, 35_980, trip)], query);
    let second = |from: usize, to: usize| (from, to, 35_980, 35_980, 7);
    let rounds = ground(6, (3, 2, 1_000), &[second(1, 0), second(0, 1), second(1, 2), second(5, 4), second(4, 5)], query);
    let between = ground(5, (1, 2, 500), &[(0, 1, 35_900, 35_940, 7), (1, 4, 35_950, 35_990, 7)], ask(500, 300));
    let mixed = ground(5, (3, 2, 1_000), &[(4, 1, 35_930, 35_940, 7), (1, 2, 35_950, 35_990, 7), (0, 4, 35_900, 35_920, 7)], query);
    vec![
        on(&vehicles, 60, &[2, 0, 3, 1_000, 1, 1_150, 0, 1_600]),
        on(&at_once(7), 5, &[2, 0, 1, 250, 0, 250, 3, 1_000]),
        on(&at_once(7), 0, &[2, 0, 1, 200, 0, 200, 3, 1_000]),
        on(&at_once(0), 5, &[2, 0, 1, 250, 3, 1_000]),
        on(&at_once(0), 0, &[2, 0, 1, 200, 0, 200, 3, 1_000]),
        on(&rounds, 5, &[2, 0, 1, 250, 0, 250, 3, 1_000]),
        on(&rounds, 0, &[2, 0, 1, 200, 0, 200, 3, 1_000]),
        on(&between, 60, &[2, 0, 1, 500, 0, 1_600]),
        on(&mixed, 60, &[2, 0, 3, 1_000, 1, 1_100, 4, 1_300, 0, 1_600]),
        on(&mixed, 0, &[2, 0, 1, 500, 4, 700, 0, 1_000, 3, 1_000]),
    ]
}

fn refusals() -> Vec<Row> {
    use View::{Left, Numbers};
    let own = usual(ask(1_000, 300));
    let on = |room: usize, scratch: usize, boarding: u32, view: View, want: &[u32]| (lent(&own, room, scratch, boarding, NO_LIMIT), view, want.to_vec());
    let beyond = (lent(&usual(ask(1_001, 300)), 4, 7, 601, NO_LIMIT), Numbers, vec![7, 1, 0, 0, 0, 0]);
    let walked = ground(2, (0, 1, 1_000), &[], ask(1_000, 300));
    let list = [0, 0, 0, 2, 0, 0, 0, 0, 0, 0, 0, 3, 0, 0, 3, 232];
    let behind = |zeros: usize| [&list[..], &vec![0; zeros]].concat();
    let broken = |more: usize, arrival: i32| {
        let ground = line(arrival, 35_950, 35_990, [7, 7], ask(1_000, 300));
        Case { settled: vec![7; 32 + more], ..lent(&ground, 0, 7, 601, NO_LIMIT) }
    };
    vec![
        on(4, 8, 601, Numbers, &[7, 5, 0, 0, 0, 0]),
        on(4, 7, 601, Numbers, &[7, 5, 0, 0, 0, 0]),
        beyond,
        on(4, 7, 600, Numbers, &[18, 0, 0, 0, 0, 0]),
        on(4, 8, 600, Numbers, &[0, 0, 2, 0, 0, 1]),
        on(1, 7, 600, Left, &[7; 15]),
        on(1, 8, 601, Left, &[7; 16]),
        on(3, 8, 60, Numbers, &[9, 4, 0, 0, 0, 0]),
        on(1, 8, 60, Numbers, &[9, 2, 0, 0, 0, 0]),
        on(1, 8, 60, Left, &[0; 16]),
        on(2, 10, 600, Left, &behind(10)),
        on(3, 8, 600, Left, &behind(16)),
        (lent(&walked, 2, 0, 60, NO_LIMIT), Left, vec![0, 0, 0, 1, 0, 0, 0, 0, 0, 0, 0, 0, 0, 0, 3, 232]),
        (broken(1, 35_940), Numbers, vec![1, 4, 0, 0, 0, 0]),
        (broken(0, 35_899), Numbers, vec![3, 0, 0, 0, 0, 0]),
    ]
}
