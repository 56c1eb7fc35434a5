//! What the cases of a seed have to contain to be worth running.

use std::collections::{BTreeMap, BTreeSet};

use super::{big, bought, fuzz, groups, hopeless, jobs, small, stream};
use crate::fast;
use crate::mutant::{Mutant, Sound};
use crate::outcome::{Call, Case, Outcome};
use crate::pair;
use crate::records::{
    trip, word, Answer, Held, Hop, Part, PartsAnswer, Settled, Walk, Way, ANSWER, HELD, HOP, NONE,
    SETTLED, TRIP_HOP, VERTEX, WALK,
};
use crate::rng::Rng;
use crate::slow;

const CASES: usize = 80_000;

/// The refusals (or 0) and places that the operations of a case answer.
fn answers(case: &Case, after: &Outcome) -> Vec<(&'static str, (u32, u32))> {
    if !case.call.returns_refusal() && after.returned != 0 {
        return vec![];
    }
    let (refusal, accepted) = (case.refusal(after), (0, 0));
    match case.call {
        Call::Check => vec![("check", refusal)],
        Call::Run => vec![("run", refusal)],
        Call::Parts => vec![("parts", refusal)],
        Call::Pair if Answer::read(&after.answer).refusal != 0 => vec![("run", refusal)],
        Call::Pair => vec![("run", accepted), ("parts", refusal)],
        Call::Move(Way::Forward) => vec![("forward", refusal)],
        Call::Move(Way::Backward) => vec![("backward", refusal)],
        Call::Judge => vec![("judge", refusal)],
        Call::Runs => each_answer(after),
        Call::Patients => vec![("patients", refusal)],
    }
}

/// The refusals and places that many queries answer.
fn each_answer(after: &Outcome) -> Vec<(&'static str, (u32, u32))> {
    let told = |bytes: &[u8]| {
        let six = Answer::read(bytes);
        ("runs", (six.refusal, six.place))
    };
    after.answer.chunks_exact(ANSWER).map(told).collect()
}

#[test]
fn every_refusal_arises() {
    let mut seen = BTreeMap::new();
    for case in stream(1).take(CASES) {
        for answer in answers(&case, &case.fast(Sound)) {
            *seen.entry(answer).or_insert(0) += 1;
        }
    }
    let often = |operation: &'static str, number: u32, place: u32, least: usize| {
        let count = *seen.get(&(operation, (number, place))).unwrap_or(&0);
        assert!(count >= least, "{operation} {number} {place}: {count}");
    };
    for (operation, places) in [
        ("check", &[0, 1, 2][..]),
        ("run", &[0, 1, 2, 3, 4]),
        ("parts", &[0, 1, 2, 4, 5]),
        ("judge", &[0, 1, 2, 4]),
        ("runs", &[0, 1, 2, 3]),
        ("patients", &[0, 1, 2, 3, 4, 6, 7]),
    ] {
        for &place in places {
            often(operation, 1, place, 10);
        }
        // Calls that there are fewer cases of come to the first records.
        let places = match operation {
            "runs" | "patients" => 4,
            _ => 8,
        };
        for number in 2..=6 {
            let first = u32::from(number == 4 || number == 5);
            for place in first..places {
                often(operation, number, place, 1);
            }
        }
        often(operation, 0, 0, 100);
    }
    for place in 0..5 {
        often("run", 7, place, 20);
        often("parts", 7, place, 20);
        often("judge", 7, place, 10);
        often("runs", 7, place, 20);
        often("patients", 7, place, 3);
    }
    for step in 0..7 {
        often("run", 8, step, 10);
        often("run", 9, step + 1, 10);
        often("runs", 8, step, 3);
        often("runs", 9, step + 1, 3);
        often("patients", 8, step, 3);
        often("patients", 9, step + 1, 3);
        often("patients", 19, step, 3);
        often("parts", 10, step, 10);
        often("parts", 21, step, 20);
    }
    for place in 0..7 {
        often("judge", 25, place, 10);
        often("judge", 26, place, 3);
        often("judge", 27, place, 10);
        often("judge", 28, place, 10);
    }
    for place in 0..3 {
        often("patients", 20, place, 20);
    }
    often("judge", 28, NONE - 1, 50);
    often("judge", 28, NONE, 50);
    often("judge", 0, 0, 500);
    for way in ["forward", "backward"] {
        often(way, 0, 0, 50);
        often(way, 1, 2, 50);
        often(way, 1, 6, 50);
    }
    for record in 0..7 {
        often("backward", 11, record, 10);
    }
    often("run", 0, 0, CASES / 12);
    often("parts", 0, 0, CASES / 12);
}

/// The features of an accepted pair that rules turn on.
fn features(case: &Case, outcome: &Outcome) -> Vec<&'static str> {
    let six = Answer::read(&outcome.answer);
    let settled = |i| Settled::read(&outcome.settled, i);
    let settled: Vec<Settled> = (0..six.settled as usize).map(settled).collect();
    let window = case.query.duration * case.query.speed;
    let held = |i| Held::read(&outcome.held, i);
    let parts = PartsAnswer::read(&outcome.parts_answer).parts as usize;
    let records = (0..parts).map(|i| Part::read(&outcome.parts, i).record);
    let distinct = records.collect::<BTreeSet<u32>>().len();
    let length = Walk::read(&case.walks, case.query.record as usize).length;
    let mut list = vec![];
    let mut add = |holds: bool, name| {
        if holds {
            list.push(name)
        }
    };
    add(
        settled.windows(2).any(|w| w[0].distance == w[1].distance),
        "tie",
    );
    add(settled.iter().any(|s| s.distance == window), "distance D");
    add(
        (0..six.held as usize).any(|i| held(i).distance == NONE),
        "none",
    );
    add(distinct < parts, "two parts on a record");
    add(on_time(case, &settled, 0), "hop at the last moment");
    add(on_time(case, &settled, 1), "hop less than a second late");
    add(case.query.offset == 0, "offset 0");
    add(case.query.offset == length, "offset length");
    add(six.settled >= 6, "six steps");
    add(six.settled == 0 && six.finished == 1, "nothing within D");
    add(six.finished == 0, "unfinished");
    add(
        (case.query.arrival as u32) < case.query.duration,
        "before midnight",
    );
    list.extend(moment_features(case, &settled, six.finished));
    list.extend(wait_features(case, &settled));
    list
}

/// What a pair tries of waits.
fn wait_features(case: &Case, settled: &[Settled]) -> Vec<&'static str> {
    let q = case.query;
    let walks = (0..case.walks.len() / WALK).map(|i| Walk::read(&case.walks, i));
    let walks: Vec<Walk> = walks.collect();
    let e = walks[q.record as usize];
    let twin = walks.get(e.twin as usize);
    let window = i64::from(q.duration * q.speed);
    // At the end of each walk with a wait: what is left beyond the wait.
    let own = |v: u32| settled.iter().find(|s| s.vertex == v).map(|s| s.distance);
    let waiting = walks.iter().filter(|w| w.wait > 0);
    let beyond = |w: &Walk| Some(window - i64::from(own(w.to)?) - i64::from(w.wait * q.speed));
    let beyond: Vec<i64> = waiting.filter_map(beyond).collect();
    let at_end = i64::from(e.wait * q.speed);
    let mut names = vec![];
    let mut add = |holds: bool, name| {
        if holds {
            names.push(name)
        }
    };
    add(!beyond.is_empty(), "a wait at a settled vertex");
    add(beyond.contains(&0), "a wait just reached");
    add(beyond.contains(&-1), "a wait missed by a tick");
    add(beyond.contains(&1), "a wait and a tick");
    add(walks.iter().any(|w| w.wait == 120), "a wait of 120");
    add(
        twin.is_some_and(|twin| twin.wait != e.wait),
        "twins with different waits",
    );
    add(e.wait > 0 && q.offset == e.length, "a place past a wait");
    add(
        q.offset == 0 && twin.is_some_and(|twin| twin.wait > 0),
        "a place past the twin's wait",
    );
    add(
        e.wait > 0 && q.offset == e.length - 1,
        "a place just before a wait",
    );
    add(
        q.offset == e.length && at_end > window,
        "a wait longer than the time",
    );
    add(e.wait > 0 && q.speed == 1, "a wait at speed 1");
    add(e.wait > 0 && q.speed == 100, "a wait at speed 100");
    names
}

/// What a pair tries of rides of no minutes.
fn moment_features(case: &Case, settled: &[Settled], finished: u32) -> Vec<&'static str> {
    let size = case.hop_size as usize;
    let hops = (0..case.hops.len() / size).map(|i| Hop::read(&case.hops, size, i));
    let still: Vec<Hop> = hops.filter(|h| h.departure == h.arrival).collect();
    let ticks = |hop: &Hop| (case.query.arrival - hop.arrival) as u32 * case.query.speed;
    let own = |v: u32| settled.iter().find(|s| s.vertex == v).map(|s| s.distance);
    let ridden =
        |hop: &&Hop| hop.arrival <= case.query.arrival && own(hop.from) == Some(ticks(hop));
    let back = |hop: &&Hop| {
        let there = (hop.to, hop.from, hop.arrival);
        still.iter().any(|h| (h.from, h.to, h.arrival) == there)
    };
    let walks = (0..case.walks.len() / WALK).map(|i| Walk::read(&case.walks, i));
    let walks: Vec<Walk> = walks.collect();
    let walked = |hop: &&Hop| {
        let cost = |w: &Walk| w.length + w.wait * case.query.speed;
        let same = |w: &Walk| own(w.to).map(|d| d + cost(w)) == Some(ticks(hop));
        walks.iter().any(|w| w.from == hop.from && same(w))
    };
    let falls = |w: &[Settled]| w[0].distance == w[1].distance && w[0].vertex > w[1].vertex;
    // The next step settles a smaller number at the same distance.
    let cut = || {
        let vertices = case.vertices.len() / VERTEX;
        let next = Case {
            call: Call::Run,
            limit: settled.len() as u32 + 1,
            held: vec![0; vertices * HELD],
            settled: vec![0; vertices * SETTLED],
            ..case.clone()
        };
        let next = Settled::read(&next.fast(Sound).settled, settled.len());
        settled.last().is_some_and(|&last| falls(&[last, next]))
    };
    let lost =
        |hop: &&Hop| hop.arrival <= case.query.arrival && back(hop) && own(hop.from).is_none();
    let mut names = vec![];
    let mut add = |holds: bool, name| {
        if holds {
            names.push(name)
        }
    };
    add(settled.windows(2).any(falls), "a smaller number turns up");
    add(
        still.iter().any(|h| ridden(&h) && back(&h)),
        "a circle at one second",
    );
    add(
        still.iter().any(|h| lost(&h)),
        "a circle that leads nowhere",
    );
    add(
        still.iter().any(|h| ridden(&h) && walked(&h)),
        "a tie of walk and ride",
    );
    add(finished == 0 && cut(), "a limit inside such a tie");
    names
}

/// Is there a hop to a settled vertex that arrives exactly when it must (0),
/// or later by less than one second (1)?
fn on_time(case: &Case, settled: &[Settled], late: i64) -> bool {
    let speed = i64::from(case.query.speed);
    let size = case.hop_size as usize;
    let hops = (0..case.hops.len() / size).map(|i| Hop::read(&case.hops, size, i));
    hops.into_iter().any(|hop| {
        let far = settled.iter().find(|s| s.vertex == hop.to);
        far.is_some_and(|far| {
            let moment = i64::from(case.query.arrival) * speed - i64::from(far.distance);
            let after = i64::from(hop.arrival) * speed - moment;
            if late == 0 {
                after == 0
            } else {
                after > 0 && after < speed
            }
        })
    })
}

fn tally<'a>(seen: &mut BTreeMap<&'a str, usize>, names: Vec<&'a str>) {
    for name in names {
        *seen.entry(name).or_insert(0) += 1;
    }
}

#[test]
fn every_feature_arises() {
    let mut seen = BTreeMap::new();
    for case in stream(1).take(CASES).filter(|case| case.call == Call::Pair) {
        let outcome = case.fast(Sound);
        if outcome.returned == 0 && case.refusal(&outcome).0 == 0 {
            tally(&mut seen, features(&case, &outcome));
        }
    }
    assert_eq!(seen.len(), 29, "{seen:#?}");
    assert!(seen.values().all(|&count| count >= 40), "{seen:#?}");
}

/// The features of a list that rules turn on, accepted or refused.
fn list_features(case: &Case, outcome: &Outcome) -> Vec<&'static str> {
    let three = PartsAnswer::read(&outcome.parts_answer);
    let entry = |i| Settled::read(&case.list, i);
    let list: Vec<Settled> = (0..case.list.len() / SETTLED).map(entry).collect();
    let window = case.query.duration * case.query.speed;
    let zero = list
        .last()
        .is_some_and(|e| (e.vertex, e.distance) == (0, 0));
    let falls = list.windows(2).any(|w| w[0].distance > w[1].distance);
    let (good, bad) = (three.refusal == 0, three.refusal == 21);
    let mut names = vec![];
    let mut add = |holds: bool, name| {
        if holds {
            names.push(name)
        }
    };
    add(good && list.is_empty(), "an empty list");
    add(good && falls, "distances in any order");
    add(
        good && list.iter().any(|e| e.distance == window),
        "distance D",
    );
    add(good && zero, "a zero record that passes");
    add(bad && zero, "zero records that do not");
    add(
        good && three.parts > 0 && case.parts.len() == 12 * three.parts as usize,
        "room exact",
    );
    if bad {
        let at = three.place as usize;
        let told = list[at];
        let before = list[..at].iter().position(|e| e.vertex == told.vertex);
        let exists = (told.vertex as usize) < case.vertices.len() / VERTEX;
        add(!exists, "no such vertex");
        add(exists && before.is_none(), "a distance above D");
        add(told.distance == window + 1, "a distance of D and 1");
        add(before.is_some_and(|b| b + 1 < at), "a repeat far off");
        add(
            before.is_some_and(|b| list[b].distance != told.distance),
            "a repeat at another distance",
        );
        add(
            told.vertex >= 32_768 && exists,
            "a repeat in the upper half",
        );
        add(at + 1 == list.len(), "the last entry");
    }
    names
}

#[test]
fn every_kind_of_list_arises() {
    let mut seen = BTreeMap::new();
    for case in stream(1)
        .take(CASES)
        .filter(|case| case.call == Call::Parts)
    {
        let outcome = case.fast(Sound);
        if outcome.returned == 0 {
            tally(&mut seen, list_features(&case, &outcome));
        }
    }
    assert_eq!(seen.len(), 13, "{seen:#?}");
    assert!(seen.values().all(|&count| count >= 5), "{seen:#?}");
    let few = |name: &str| name == "a repeat in the upper half";
    let often = |(name, count): (&&str, &usize)| *count >= 100 || few(name);
    assert!(seen.iter().all(often), "{seen:#?}");
}

/// What a case tries of the size of a hop, or of a move.
fn trip_features(case: &Case, after: &Outcome) -> Vec<&'static str> {
    let (refusal, size) = (case.refusal(after), case.hop_size as usize);
    let good = refusal.0 == 0 && !case.hops.is_empty();
    let mut names = vec![];
    let mut add = |holds: bool, name| {
        if holds {
            names.push(name)
        }
    };
    if let Call::Move(way) = case.call {
        let other = |holds: bool| holds && refusal == (0, 0);
        add(other(way == Way::Forward && good), "hops go forward");
        add(other(way == Way::Backward && good), "hops go backward");
        let equal = case.hops.len() == case.target.len();
        add(refusal == (1, 6) && equal, "a target as long as the source");
        add(
            refusal.0 == 11 && refusal.1 as usize == case.hops.len() / TRIP_HOP - 1,
            "the last record alone has a trip",
        );
        return names;
    }
    let wrong = size != HOP && size != TRIP_HOP;
    let cut = case.held.len() % 16 != 0 || case.list.len() % 8 != 0;
    add(good && size == HOP, "16 bytes");
    add(good && size == TRIP_HOP, "20 bytes");
    if good && size == TRIP_HOP {
        let trips = (0..case.hops.len() / TRIP_HOP).map(|i| trip(&case.hops, i));
        add(trips.clone().any(|t| t != 0), "a known trip");
        add(trips.clone().any(|t| t == 0), "an unknown trip");
        add(
            trips.clone().any(|t| t > 0 && t < 172_800),
            "a trip like a time",
        );
    }
    add(wrong && refusal == (1, 2), "a wrong size");
    add(wrong && refusal == (1, 0), "a wrong size after vertices");
    add(wrong && refusal == (1, 1), "a wrong size after walks");
    add(wrong && cut && refusal == (1, 2), "before a buffer");
    add(wrong && case.hops.is_empty(), "a wrong size over no hop");
    let mixed = |own: usize| size == own && case.hops.len() % own != 0 && refusal == (1, 2);
    add(
        mixed(HOP) && case.hops.len() % TRIP_HOP == 0,
        "16 bytes named over 20",
    );
    add(
        mixed(TRIP_HOP) && case.hops.len() % HOP == 0,
        "20 bytes named over 16",
    );
    names
}

#[test]
fn every_kind_of_trip_arises() {
    let mut seen = BTreeMap::new();
    for case in stream(1).take(CASES) {
        let outcome = case.fast(Sound);
        if case.call.returns_refusal() || outcome.returned == 0 {
            tally(&mut seen, trip_features(&case, &outcome));
        }
    }
    assert_eq!(seen.len(), 16, "{seen:#?}");
    assert!(seen.values().all(|&count| count >= 5), "{seen:#?}");
    for name in ["16 bytes", "20 bytes", "a known trip", "a trip like a time"] {
        assert!(seen[name] >= 1_000, "{seen:#?}");
    }
}

/// The two operations give the bytes of the one, at every limit.
#[test]
fn pairs_give_the_old_bytes() {
    let (mut accepted, mut others) = (0, 0);
    for (number, case) in stream(3).take(CASES / 4).enumerate() {
        let outcome = case.fast(Sound);
        if let Some(same) = pair::gives_old_bytes(&case, &outcome, case.small()) {
            assert!(same, "case {number}");
            match case.refusal(&outcome).0 {
                0 => accepted += 1,
                _ => others += 1,
            }
        }
    }
    assert!(accepted >= 500 && others >= 500, "{accepted} {others}");
}

/// A pair whose bytes are not the old ones is noticed.
#[test]
fn other_bytes_are_noticed() {
    let wrong = [
        Mutant::RunPartCount,
        Mutant::PartsNoStart,
        Mutant::PartsStepOff,
        Mutant::ListByDistance,
        Mutant::ListDistanceTight,
        Mutant::TailKept,
        Mutant::ClipTwin,
    ];
    for mutant in wrong {
        let told = stream(3).take(12_000).any(|case| {
            let outcome = case.fast(mutant);
            pair::gives_old_bytes(&case, &outcome, case.small()) == Some(false)
        });
        assert!(told, "{mutant:?}");
    }
}

/// The wrong versions of forgetting, and how many cases tell each at least.
const FORGETTING: &[(Mutant, usize)] = &[
    (Mutant::ForgetNever, 100),
    (Mutant::ForgetAtD, 5),
    (Mutant::ForgetFloor, 3),
    (Mutant::ForgetRemaining, 100),
    (Mutant::ForgetOneLeft, 100),
    (Mutant::ForgetNoneKept, 20),
    (Mutant::ForgetNoneAlone, 100),
    (Mutant::ForgetSeedKept, 20),
    (Mutant::ForgetUpperKept, 1),
    (Mutant::ForgetNewKept, 50),
    (Mutant::ForgetNewAlone, 50),
    (Mutant::ForgetFirstOffer, 5),
    (Mutant::ForgetSlotFirst, 5),
    (Mutant::ForgetSeveral, 3),
];

#[test]
fn every_kind_of_forgetting_arises() {
    let mut seen = vec![0; FORGETTING.len()];
    let cases = stream(1).take(CASES / 4);
    for case in cases.filter(|case| case.call.runs()) {
        let right = case.fast(Sound);
        for (count, (mutant, _)) in seen.iter_mut().zip(FORGETTING) {
            *count += usize::from(case.fast(*mutant) != right);
        }
    }
    for (count, (mutant, least)) in seen.iter().zip(FORGETTING) {
        assert!(count >= least, "{mutant:?}: {count}");
    }
}

/// The held records of an accepted run.
fn held_rows(after: &Outcome) -> Vec<Held> {
    let count = Answer::read(&after.answer).held as usize;
    (0..count).map(|i| Held::read(&after.held, i)).collect()
}

/// Settled list, parts and finished are those of a run that forgets nothing;
/// the held table is part of its table, and lacks the hopeless alone. What is
/// forgotten at one limit is absent at every larger one, and never settled.
#[test]
fn forgetting_takes_the_hopeless_alone() {
    let mut forgotten = 0;
    for index in 0..400 {
        let scene = hopeless::scene(&mut Rng::new(5, index));
        let window = scene.query.duration * scene.query.speed;
        let mut gone: BTreeSet<u32> = BTreeSet::new();
        for limit in 0..=scene.network.vertices.len() as u32 {
            let case = scene.pair_case(limit);
            let (new, old) = (case.slow(), case.fast(Mutant::ForgetNever));
            assert_eq!(
                (&new.settled, &new.parts, &new.parts_answer),
                (&old.settled, &old.parts, &old.parts_answer)
            );
            let six = |after: &Outcome| Answer {
                held: 0,
                ..Answer::read(&after.answer)
            };
            assert_eq!(six(&new), six(&old));
            let stays = |row: &Held| row.state == 1 || row.remaining > 0 || row.distance <= window;
            let (hold, lose) = held_rows(&old).into_iter().partition::<Vec<Held>, _>(stays);
            assert_eq!(held_rows(&new), hold);
            let lose: BTreeSet<u32> = lose.iter().map(|row| row.vertex).collect();
            assert!(lose.is_superset(&gone));
            gone = lose;
            let list = (0..six(&new).settled as usize).map(|i| Settled::read(&new.settled, i));
            assert!(list.into_iter().all(|entry| !gone.contains(&entry.vertex)));
        }
        forgotten += gone.len();
    }
    assert!(forgotten >= 400, "{forgotten}");
}

/// What `every_room` is for: at each limit the first case has room, no other
/// has, and all three buffers fall short.
#[test]
fn exact_room_is_tried_at_every_limit() {
    let mut limits = 0;
    // Every 80th group is a town, and in some the vertices lie far apart.
    for index in (7..100 * groups::TURNS)
        .step_by(groups::TURNS as usize)
        .filter(|index| index % 80 != 79 && ![119, 199].contains(&(index % 240)))
    {
        let cases = groups::group(1, index);
        let given = |case: &Case| (case.limit, case.refusal(&case.fast(Sound)).0);
        let given: Vec<(u32, u32)> = cases.iter().map(given).collect();
        if given == [(0, 7)] {
            continue;
        }
        for limit in 0..=given[given.len() - 1].0 {
            let own = given.iter().filter(|(at, _)| *at == limit);
            let own: Vec<u32> = own.map(|(_, number)| *number).collect();
            assert_eq!(own[0], 0);
            assert!(own[1..].iter().all(|number| (8..=10).contains(number)));
            assert!(own.contains(&8) && own.contains(&9) == (limit > 0));
            limits += 1;
        }
    }
    assert!(limits >= 400, "{limits}");
}

/// Vertices in both halves of the largest table, with room and without.
#[test]
fn far_vertices_arise() {
    let far = stream(1).take(CASES);
    let far = far.filter(|case| case.vertices.len() == 65_536 * VERTEX);
    let (mut given, mut both) = (BTreeMap::new(), 0);
    for case in far {
        let outcome = case.fast(Sound);
        *given.entry(case.refusal(&outcome).0).or_insert(0) += 1;
        if !case.call.runs() {
            continue;
        }
        let count = Answer::read(&outcome.answer).held as usize;
        let held = (0..count).map(|i| Held::read(&outcome.held, i).vertex);
        let halves: BTreeSet<u32> = held.map(|vertex| vertex / 32_768).collect();
        both += usize::from(halves.len() == 2);
    }
    let often = |number: &u32| given.get(number).is_some_and(|&count| count >= 5);
    assert!(
        [0, 8, 9, 10, 21].iter().all(often) && both >= 5,
        "{given:?} {both}"
    );
}

#[test]
fn every_kind_of_job_arises() {
    let texts = (0..2_000).map(|i| fast::print(&jobs::job(1, i), Sound));
    let mut seen = BTreeMap::new();
    for text in texts {
        let words: Vec<&str> = text.split_whitespace().take(2).collect();
        *seen.entry(words.join(" ")).or_insert(0) += 1;
    }
    let count = |name: &str| *seen.get(name).unwrap_or(&0);
    assert!(count("answer 0") > 500);
    for refusal in [1, 2, 3, 4, 5, 6, 7] {
        assert!(
            count(&format!("answer {refusal}")) > 0,
            "{refusal}: {seen:?}"
        );
    }
    assert!(count("answer 8") + count("answer 9") + count("answer 10") == 0);
    for place in [0, 1, 2, 3, 4, 5, 6, 7, 8, 9, 10, 512, 1_536] {
        assert!(count(&format!("job {place}")) > 0, "{place}: {seen:?}");
    }
}

#[test]
fn the_same_seed_gives_the_same_cases() {
    let bytes = |seed| -> Vec<u8> {
        let cases = stream(seed).take(300);
        cases.flat_map(|c| [c.walks, c.held].concat()).collect()
    };
    assert_eq!(bytes(5), bytes(5));
    assert_ne!(bytes(5), bytes(6));
}

#[test]
fn big_cases_give_what_they_are_built_for() {
    for big in big::ALL {
        let case = (big.make)();
        let outcome = case.fast(Sound);
        assert!(big.fits(case.refusal(&outcome)), "{}", big.name);
    }
}

/// Once 32,767 is settled all smaller numbers turn up, before the larger ones
/// that were there.
#[test]
fn smaller_numbers_turn_up_at_one_moment() {
    let outcome = big::moment().run_case(NONE).fast(Sound);
    let order = (0..65_536).map(|i| Settled::read(&outcome.settled, i));
    let wanted = [65_535, 32_767].into_iter().chain(0..32_767);
    let wanted = wanted.chain(32_768..65_535);
    assert!(order
        .map(|s| (s.vertex, s.distance))
        .eq(wanted.map(|v| (v, 0))));
}

#[test]
fn fast_and_slow_agree() {
    for (number, case) in stream(11).take(3_000).enumerate() {
        assert_eq!(case.fast(Sound), case.slow(), "case {number}");
    }
    for number in 0..300 {
        let job = jobs::job(11, number);
        assert_eq!(fast::print(&job, Sound), slow::print(&job), "job {number}");
    }
}

/// Damage without a plan still has to come everywhere: to each refusal, and
/// often enough as far as an accepted run.
#[test]
fn damaged_cases_come_everywhere() {
    let mut seen = [0; 29];
    let mut strange = 0;
    for index in 0..8_000 {
        let case = fuzz::case(1, index);
        let outcome = case.fast(Sound);
        match !case.call.returns_refusal() && outcome.returned != 0 {
            true => strange += 1,
            false => seen[case.refusal(&outcome).0 as usize] += 1,
        }
    }
    assert!(strange >= 100, "{strange} answers of another length");
    assert!(seen[0] >= 800, "{} accepted", seen[0]);
    for number in (0..=11).chain(19..=21).chain(25..=28) {
        let count = seen[number];
        // Walks that are moved mostly lose their twins first, which is refusal 2.
        let least = match number {
            4 => 3,
            19 | 20 | 25.. => 10,
            _ => 20,
        };
        assert!(count >= least, "refusal {number}: {count}");
    }
}

/// A run's own list passes with any records that are reasons, in any order that
/// these allow; and it always has them.
#[test]
fn own_lists_pass() {
    let mut passed = 0;
    for index in 0..1_500 {
        let rng = &mut Rng::new(3, index);
        let scene = small::scene(rng);
        if scene.network.walks.is_empty() {
            continue;
        }
        for list in [
            bought::own(&scene, rng),
            bought::reordered(&scene, rng),
            bought::whole(&scene),
        ] {
            let case = scene.judge_case(&list);
            assert_eq!(case.slow().returned, 0, "scene {index}");
            passed += usize::from(list.len() > 2);
        }
    }
    assert!(passed > 1_000, "{passed}");
}

/// What an evening tries beyond its refusals.
fn evening_features(case: &Case, after: &Outcome) -> Vec<&'static str> {
    let six = Answer::read(&after.answer);
    let figure = |at: usize| word(&after.report, 4 * at);
    let vertices = case.vertices.len() / VERTEX;
    let last = i64::from(case.query.arrival) + i64::from(case.gap) * (i64::from(case.arrivals) - 1);
    let mut names = vec![];
    let mut add = |holds: bool, name| {
        if holds {
            names.push(name)
        }
    };
    if six.refusal == 0 {
        let some = |v: &usize| (1..case.arrivals).contains(&figure(*v));
        let covered: BTreeSet<u32> = (0..case.arrivals as usize)
            .map(|i| figure(vertices + i))
            .collect();
        add((0..vertices).any(|v| some(&v)), "a vertex at some arrivals");
        add(covered.len() > 1, "arrivals that differ");
        add(
            !covered.contains(&figure(vertices + case.arrivals as usize)),
            "a total beyond them",
        );
        add(last == 172_800, "a last arrival at the limit");
        add(case.gap < case.query.duration, "windows that overlap");
    }
    if six.refusal == 8 || six.refusal == 9 {
        let mut first = case.clone();
        first.call = Call::Run;
        first.limit = NONE;
        let first = first.fast(Sound);
        add(
            Answer::read(&first.answer).refusal == 0,
            "room short at a later arrival",
        );
    }
    add(
        six.refusal == 20 && last == 172_801,
        "a second beyond the limit",
    );
    names
}

#[test]
fn every_kind_of_evening_arises() {
    let mut seen = BTreeMap::new();
    for case in stream(1).take(CASES) {
        let after = match case.call {
            Call::Patients => case.fast(Sound),
            _ => continue,
        };
        if after.returned == 0 {
            tally(&mut seen, evening_features(&case, &after));
        }
    }
    for name in [
        "a vertex at some arrivals",
        "arrivals that differ",
        "a total beyond them",
        "a last arrival at the limit",
        "a second beyond the limit",
        "windows that overlap",
        "room short at a later arrival",
    ] {
        let count = *seen.get(name).unwrap_or(&0);
        assert!(count >= 20, "{name}: {count}");
    }
}
