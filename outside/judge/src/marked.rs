//! The marked cases M1 to M10 and the base job: what RULES 15 and 16 say of each,
//! as one table. `fast`, `slow` and the library are held against it. The cases
//! are pairs: a run, and the parts of its own list. Behind them stand vertices
//! that are forgotten, lists of all kinds, for the parts operation alone, then
//! hops with trips and moves, rides of no minutes, waits, bought lists, many
//! queries, and evenings.

mod bought;
mod forgetting;
mod lists;
mod many;
mod moments;
mod patients;
mod trips;
mod waits;

use crate::network::{Network, Scene};
use crate::outcome::{Call, Case, Outcome};
use crate::records::{
    word, Answer, Held, Hop, Part, PartsAnswer, Query, Settled, Vertex, Walk, ANSWER, HELD, NONE,
    PART, SETTLED,
};

/// A call, and what its outcome has to be.
pub struct Marked {
    pub name: &'static str,
    pub make: fn() -> Case,
    wanted: &'static [Wanted],
}

enum Wanted {
    /// All held records: vertex, distance, state, remaining.
    Held(&'static [(u32, u32, u32, u32)]),
    /// This one among the held records.
    Holds((u32, u32, u32, u32)),
    /// The held vertices and what remains of each.
    Remaining(&'static [(u32, u32)]),
    /// The settled vertices.
    Order(&'static [u32]),
    /// The settled records: vertex, distance.
    Settled(&'static [(u32, u32)]),
    /// All parts: walk record, start, end.
    Parts(&'static [(u32, u32, u32)]),
    /// The parts of one walk record.
    PartsOn(u32, &'static [(u32, u32)]),
    Finished(u32),
    /// The refusal and place of the check, of the run, or of a move.
    Refusal(u32, u32),
    /// The hops that a move leaves in its target, the trip behind each if
    /// there is one.
    Moved(&'static [[u8; 16]], Option<u32>),
    /// The refusal and place of the parts.
    PartsRefusal(u32, u32),
    /// What the call returns.
    Returned(u64),
    /// Of many queries: refusal, place, settled, held and finished of each.
    Answers(&'static [[u32; 5]]),
    /// The settled records from this one on.
    From(usize, &'static [(u32, u32)]),
    /// The settled buffer from this byte on, and the held buffer, as `filled`
    /// has lent them.
    SettledKept(usize),
    HeldKept,
    /// The report of an evening, and that it is as `filled` has lent it.
    Report(&'static [u32]),
    ReportKept,
    /// The held buffer: these records, and zeros behind them.
    HeldBytes(&'static [(u32, u32, u32, u32)]),
}

use Wanted::{Finished, Holds, Moved, Order, Parts, PartsOn, PartsRefusal, Refusal, Remaining};

const fn marked(name: &'static str, make: fn() -> Case, wanted: &'static [Wanted]) -> Marked {
    Marked { name, make, wanted }
}

/// Every row: the marked cases, forgotten vertices, the lists, trips and moves,
/// rides of no minutes, waits, bought lists, many queries, evenings.
pub fn all() -> impl Iterator<Item = &'static Marked> {
    let rows = MARKED.iter().chain(forgetting::ALL).chain(lists::ALL);
    let rows = rows.chain(trips::ALL).chain(moments::ALL);
    let rows = rows.chain(waits::ALL).chain(bought::ALL);
    rows.chain(many::ALL).chain(patients::ALL)
}

const MARKED: &[Marked] = &[
    marked("base job", || lent(base(), NONE), BASE),
    marked(
        "M1",
        || lent(base(), 0),
        &[Wanted::Held(&[(0, 1500, 0, 1), (1, 500, 0, 2)])],
    ),
    marked(
        "M2",
        || lent(base(), 1),
        &[Wanted::Held(&[
            (0, 1500, 0, 0),
            (1, 500, 1, 2),
            (2, 3000, 0, 0),
            (3, 2400, 0, 1),
        ])],
    ),
    marked(
        "M3",
        || lent(base(), 2),
        &[Remaining(&[(1, 1), (2, 0), (3, 1)])],
    ),
    marked(
        "M4",
        || lent(base(), 3),
        &[Wanted::Held(&[
            (1, 500, 1, 1),
            (2, 3000, 0, 0),
            (3, 2400, 1, 1),
        ])],
    ),
    marked(
        "M5",
        || lent(window(299), NONE),
        &[Order(&[1, 0, 3]), PartsOn(0, &[(0, 500), (510, 2000)])],
    ),
    marked(
        "M6, 35950",
        || lent(ride(35_760, 35_950), 1),
        &[Holds((3, 2400, 0, 1))],
    ),
    marked(
        "M6, 35951",
        || lent(ride(35_760, 35_951), 1),
        &[Holds((3, NONE, 0, 1))],
    ),
    marked("M7, held room 4", || room([4, 5, 8]), BASE),
    marked("M7, held room 3", || room([3, 5, 8]), &[Refusal(8, 1)]),
    marked(
        "M8, part room 5",
        || room([5, 5, 5]),
        &[
            Refusal(0, 0),
            Wanted::Settled(BASE_SETTLED),
            PartsRefusal(10, 3),
        ],
    ),
    marked("M8, settled room 3", || room([5, 3, 8]), &[Refusal(9, 4)]),
    // The run knows nothing of parts, so that 10 at step 3 does not go first.
    marked("M8, both", || room([5, 3, 5]), &[Refusal(9, 4)]),
    marked(
        "M9, offset 900",
        || lent(one_way(900), 0),
        &[Wanted::Held(&[(3, 900, 0, 2), (4, 0, 0, 1)])],
    ),
    marked(
        "M9, offset 899",
        || lent(one_way(899), 0),
        &[Wanted::Held(&[(3, 899, 0, 2)])],
    ),
    marked("M9, offset 901", || lent(one_way(901), 0), &[Refusal(7, 1)]),
    marked("M10", || lent(ride(35_880, 35_880), NONE), moments::M10),
    marked("base job, run alone", || alone(base(), NONE), BASE_RUN),
    marked(
        "base job, parts alone",
        || listed(base(), BASE_SETTLED, 8),
        &[Parts(BASE_PARTS)],
    ),
    marked(
        "M5, parts alone",
        || listed(window(299), &BASE_SETTLED[..3], 8),
        &[PartsOn(0, &[(0, 500), (510, 2000)])],
    ),
    marked(
        "M8, parts alone in room 6",
        || listed(base(), BASE_SETTLED, 6),
        &[Parts(BASE_PARTS)],
    ),
    marked(
        "M8, parts alone in room 5",
        || listed(base(), BASE_SETTLED, 5),
        &[PartsRefusal(10, 3)],
    ),
    marked(
        "M9, parts alone, offset 901",
        || listed(one_way(901), &[], 8),
        &[PartsRefusal(7, 1)],
    ),
];

/// The whole output of the base job.
const BASE: &[Wanted] = &[
    Refusal(0, 0),
    Wanted::Settled(BASE_SETTLED),
    Parts(BASE_PARTS),
    Wanted::Held(BASE_HELD),
    Finished(1),
];

const BASE_RUN: &[Wanted] = &[
    Refusal(0, 0),
    Wanted::Settled(BASE_SETTLED),
    Wanted::Held(BASE_HELD),
    Finished(1),
];

const BASE_SETTLED: &[(u32, u32)] = &[(1, 500), (0, 1500), (3, 2400), (2, 3000)];

const BASE_PARTS: &[(u32, u32, u32)] = &[
    (1, 0, 1500),
    (0, 0, 500),
    (1, 1500, 2000),
    (2, 0, 2500),
    (0, 500, 2000),
    (4, 300, 900),
];

const BASE_HELD: &[(u32, u32, u32, u32)] = &[(3, 2400, 1, 1)];

fn vertex((first_walk, first_hop, departing): (u32, u32, u16)) -> Vertex {
    Vertex {
        first_walk,
        first_hop,
        departing,
        zero: 0,
    }
}

fn walk((from, to, length, twin): (u32, u32, u32, u32)) -> Walk {
    Walk {
        from,
        to,
        length,
        wait: 0,
        twin,
    }
}

fn base() -> Scene {
    let vertices = [(0, 0, 1), (1, 0, 2), (3, 1, 1), (4, 1, 2), (5, 1, 1)];
    let walks = [
        (1, 0, 2000, 1),
        (0, 1, 2000, 0),
        (2, 1, 2500, 3),
        (1, 2, 2500, 2),
        (4, 3, 900, 5),
        (3, 4, 900, 4),
    ];
    let hop = Hop {
        from: 3,
        to: 1,
        departure: 35_760,
        arrival: 35_880,
    };
    Scene {
        network: Network {
            vertices: vertices.map(vertex).to_vec(),
            walks: walks.map(walk).to_vec(),
            hops: vec![hop],
        },
        query: Query {
            record: 1,
            offset: 1_500,
            arrival: 36_000,
            duration: 300,
            speed: 10,
        },
    }
}

fn window(duration: u32) -> Scene {
    let mut scene = base();
    scene.query.duration = duration;
    scene
}

fn ride(departure: i32, arrival: i32) -> Scene {
    let mut scene = base();
    scene.network.hops[0].departure = departure;
    scene.network.hops[0].arrival = arrival;
    scene
}

/// Walks 4 and 5 without twins, the query on walk 5.
fn one_way(offset: u32) -> Scene {
    let mut scene = base();
    scene.network.walks[4].twin = NONE;
    scene.network.walks[5].twin = NONE;
    scene.query.record = 5;
    scene.query.offset = offset;
    scene
}

/// A run and its parts with room for all. No lent byte is 0, so that one left
/// over shows.
fn lent(scene: Scene, limit: u32) -> Case {
    filled(scene.pair_case(limit))
}

fn alone(scene: Scene, limit: u32) -> Case {
    filled(scene.run_case(limit))
}

/// The parts of a list alone, with so many slots.
fn listed(scene: Scene, list: &[(u32, u32)], slots: usize) -> Case {
    let entry = |&(vertex, distance): &(u32, u32)| Settled { vertex, distance };
    let list: Vec<Settled> = list.iter().map(entry).collect();
    let mut case = scene.parts_case(&list);
    case.parts = vec![0; slots * PART];
    filled(case)
}

fn filled(mut case: Case) -> Case {
    let lent = [
        &mut case.held,
        &mut case.settled,
        &mut case.parts,
        &mut case.answer,
        &mut case.parts_answer,
        &mut case.target,
        &mut case.report,
    ];
    for buffer in lent {
        buffer.fill(LENT);
    }
    case
}

/// What every lent byte is before a call.
const LENT: u8 = 9;

/// A run and its parts with so many held slots, and room for all else.
fn held_in(scene: Scene, limit: u32, slots: usize) -> Case {
    let mut case = lent(scene, limit);
    case.held = vec![9; slots * HELD];
    case
}

/// The base job with so many held, settled and part slots.
fn room(slots: [usize; 3]) -> Case {
    let mut case = lent(base(), NONE);
    case.held = vec![9; slots[0] * HELD];
    case.settled = vec![9; slots[1] * SETTLED];
    case.parts = vec![9; slots[2] * PART];
    case
}

impl Marked {
    /// Whether this is an outcome that the rules give the case.
    pub fn fits(&self, case: &Case, after: &Outcome) -> bool {
        if case.call.returns_refusal() {
            let kept = after.returned == 0 || case.target == after.target;
            let told = |wanted: &Wanted| match wanted {
                Refusal(number, place) => (*number, *place) == case.refusal(after),
                _ => wanted.of(after),
            };
            return kept && self.wanted.iter().all(told);
        }
        // What an outcome of another kind wants is said whole.
        if case.call == Call::Runs || after.returned != 0 {
            return self.wanted.iter().all(|w| w.of(after));
        }
        let listed = after.returned == 0 && run_behind(case, after) && parts_behind(case, after);
        listed && self.wanted.iter().all(|w| w.of(after))
    }
}

/// Whether the bytes behind a list of this length are zero.
fn zero_behind(bytes: &[u8], used: usize) -> bool {
    let zero = |bytes: &[u8]| bytes.iter().all(|&b| b == 0);
    bytes.get(used..).is_some_and(zero)
}

/// Whether the lent bytes behind the run's lists are what each refusal makes
/// them, and no part is counted.
fn run_behind(case: &Case, after: &Outcome) -> bool {
    if !case.call.searches() {
        return true;
    }
    let six = Answer::read(&after.answer);
    if matches!(six.refusal, 1..=7 | 19 | 20) {
        return case.held == after.held && case.settled == after.settled;
    }
    zero_behind(&after.held, six.held as usize * HELD)
        && zero_behind(&after.settled, six.settled as usize * SETTLED)
        && six.parts == 0
}

/// The same of the part buffer; where the run is refused, parts are not asked
/// for.
fn parts_behind(case: &Case, after: &Outcome) -> bool {
    let asked = match case.call {
        Call::Parts => true,
        Call::Pair => Answer::read(&after.answer).refusal == 0,
        Call::Check | Call::Run | Call::Move(_) | Call::Judge | Call::Runs | Call::Patients => {
            false
        }
    };
    if !asked {
        return case.parts == after.parts && case.parts_answer == after.parts_answer;
    }
    let three = PartsAnswer::read(&after.parts_answer);
    match three.refusal {
        1..=7 | 21 => case.parts == after.parts,
        _ => zero_behind(&after.parts, three.parts as usize * PART),
    }
}

impl Wanted {
    fn of(&self, after: &Outcome) -> bool {
        let six = || Answer::read(&after.answer);
        let three = || PartsAnswer::read(&after.parts_answer);
        match self {
            Wanted::Held(rows) => held(after) == *rows,
            Holds(row) => held(after).contains(row),
            Remaining(rows) => held(after)
                .iter()
                .map(|h| (h.0, h.3))
                .eq(rows.iter().copied()),
            Order(rows) => settled(after).iter().map(|s| s.0).eq(rows.iter().copied()),
            Wanted::Settled(rows) => settled(after) == *rows,
            Parts(rows) => three().refusal == 0 && parts(after) == *rows,
            PartsOn(record, rows) => {
                let own = parts(after).into_iter().filter(|p| p.0 == *record);
                own.map(|p| (p.1, p.2)).eq(rows.iter().copied())
            }
            Finished(finished) => six().finished == *finished,
            Moved(hops, trip) => after.returned == 0 && trips::written(&after.target, hops, *trip),
            Refusal(0, 0) => (six().refusal, six().place) == (0, 0),
            Refusal(number, place) => {
                let alone = Answer {
                    refusal: *number,
                    place: *place,
                    ..Answer::default()
                };
                six() == alone
            }
            Wanted::Returned(value) => after.returned == *value,
            Wanted::Answers(rows) => {
                let told = |&[refusal, place, settled, held, finished]: &[u32; 5]| Answer {
                    refusal,
                    place,
                    settled,
                    parts: 0,
                    held,
                    finished,
                };
                let each = after.answer.chunks(ANSWER).map(Answer::read);
                each.eq(rows.iter().map(told))
            }
            Wanted::From(first, rows) => {
                let own = (*first..).map(|i| Settled::read(&after.settled, i));
                let own = own.map(|s| (s.vertex, s.distance)).take(rows.len());
                own.eq(rows.iter().copied())
            }
            Wanted::SettledKept(byte) => after.settled[*byte..].iter().all(|&b| b == LENT),
            Wanted::Report(figures) => {
                let own = after.report.chunks(4).map(|bytes| word(bytes, 0));
                own.eq(figures.iter().copied())
            }
            Wanted::ReportKept => after.report.iter().all(|&b| b == LENT),
            Wanted::HeldKept => after.held.iter().all(|&b| b == LENT),
            Wanted::HeldBytes(rows) => {
                let own = (0..rows.len()).map(|i| Held::read(&after.held, i));
                let own = own.map(|h| (h.vertex, h.distance, h.state, h.remaining));
                own.eq(rows.iter().copied()) && zero_behind(&after.held, rows.len() * HELD)
            }
            PartsRefusal(number, place) => {
                let alone = PartsAnswer {
                    refusal: *number,
                    place: *place,
                    parts: 0,
                };
                three() == alone
            }
        }
    }
}

// The lists of an outcome; it was seen before that their counts fit the buffers.

fn held(after: &Outcome) -> Vec<(u32, u32, u32, u32)> {
    let count = Answer::read(&after.answer).held as usize;
    let rows = (0..count).map(|i| Held::read(&after.held, i));
    rows.map(|h| (h.vertex, h.distance, h.state, h.remaining))
        .collect()
}

fn settled(after: &Outcome) -> Vec<(u32, u32)> {
    let count = Answer::read(&after.answer).settled as usize;
    let rows = (0..count).map(|i| Settled::read(&after.settled, i));
    rows.map(|s| (s.vertex, s.distance)).collect()
}

fn parts(after: &Outcome) -> Vec<(u32, u32, u32)> {
    let count = PartsAnswer::read(&after.parts_answer).parts as usize;
    let rows = (0..count).map(|i| Part::read(&after.parts, i));
    rows.map(|p| (p.record, p.start, p.end)).collect()
}

#[cfg(test)]
mod tests {
    use super::{all, base, Marked, MARKED};
    use crate::commands::jobtext::encode;
    use crate::mutant::{Mutant, Sound};
    use crate::{cases, fast, slow};

    const OUTPUT: &str = "answer 0 0
vertex 1 500
vertex 0 1500
vertex 3 2400
vertex 2 3000
part 1 0 1500
part 0 0 500
part 1 1500 2000
part 2 0 2500
part 0 500 2000
part 4 300 900
held 3 2400 1 1
end 4 6 1 1
";

    #[test]
    fn both_programs_give_the_table() {
        for marked in all() {
            let case = (marked.make)();
            assert!(
                marked.fits(&case, &case.fast(Sound)),
                "fast: {}",
                marked.name
            );
            assert!(marked.fits(&case, &case.slow()), "slow: {}", marked.name);
        }
    }

    /// Wrong versions that the table alone has to tell.
    const WRONG: &[Mutant] = &[
        Mutant::StrictWindow,
        Mutant::StrictArrival,
        Mutant::HopStill,
        Mutant::HopPlace,
        Mutant::SeedOneWay,
        Mutant::OffsetTight,
        Mutant::MetByOffer,
        Mutant::RemainingStart,
        Mutant::RemainingWithin,
        Mutant::LateRemains,
        Mutant::DropUnsettled,
        Mutant::DropNever,
        Mutant::StateZero,
        Mutant::HeldReversed,
        Mutant::ForgetNever,
        Mutant::ForgetAtD,
        Mutant::ForgetNewKept,
        Mutant::PartFar,
        Mutant::PartOtherEnd,
        Mutant::PartOnce,
        Mutant::ClipNone,
        Mutant::PartTwinFirst,
        Mutant::HeldRoomTight,
        Mutant::HeldRoomLoose,
        Mutant::SettledRoomLoose,
        Mutant::PartRoomLoose,
        Mutant::RoomAtEnd,
        Mutant::LimitZero,
        Mutant::LimitLate,
        Mutant::StepOff,
        Mutant::RefusalKept,
        Mutant::RefusalOwn,
        Mutant::RefusalZeroes,
        Mutant::RefusalCounts,
        Mutant::TailKept,
        Mutant::AnswerOrder,
        Mutant::RunPartCount,
        Mutant::PartsNoStart,
        Mutant::PartsStepOff,
        Mutant::PartsLackEnd,
        Mutant::PartsKept,
        Mutant::PartsCounts,
        Mutant::ListDistanceTight,
    ];

    fn tell(rows: &[Marked], wrong: &[Mutant]) {
        for &mutant in wrong {
            let caught = rows.iter().any(|marked| {
                let case = (marked.make)();
                !marked.fits(&case, &case.fast(mutant))
            });
            assert!(caught, "{mutant:?}");
        }
    }

    #[test]
    fn the_table_tells_wrong_versions() {
        tell(MARKED, WRONG);
    }

    /// All wrong versions of forgetting but those that need a larger network.
    #[test]
    fn forgotten_vertices_tell_wrong_versions() {
        let large = [Mutant::ForgetUpperKept, Mutant::ForgetHalves];
        let forget = |m: &&Mutant| format!("{m:?}").starts_with("Forget") && !large.contains(m);
        let wrong: Vec<Mutant> = Mutant::ALL.iter().filter(forget).copied().collect();
        assert_eq!(wrong.len(), 13);
        tell(super::forgetting::ALL, &wrong);
    }

    #[test]
    fn base_job() {
        let job = cases::jobs::encode(&base());
        assert_eq!(fast::print(&job, Sound), OUTPUT);
        assert_eq!(slow::print(&job), OUTPUT);
        let text = include_str!("../base-job.txt");
        assert_eq!(encode(text), Ok(job));
    }
}
