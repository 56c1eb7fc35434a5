//! Tables without waits turned round: the courier's answers are then those of the ordinary run, and his parts those of the ordinary
//! parts seen from the other end. The ordinary program knows nothing of the courier.

use outside::cases::{hopeless, small};
use outside::mutant::Sound;
use outside::network::Scene;
use outside::outcome::{Case as Ordinary, Outcome as Left};
use outside::records::{Answer, Part, PartsAnswer, Settled, HELD, SETTLED};
use outside::rng::Rng;

use crate::call::{Case, Kind, Program};
use crate::scenes::{turned, Bytes};

/// A scene without waits, and the same turned round, if its times allow that.
pub fn scenes(seed: u64, index: u64) -> Option<(Scene, Scene)> {
    let mut rng = Rng::new(seed ^ 0x6d69_7272, index);
    let mut scene = if rng.chance(30) { hopeless::scene(&mut rng) } else { small::scene(&mut rng) };
    scene.network.walks.iter_mut().for_each(|walk| walk.wait = 0);
    let departure = if scene.query.arrival <= 86_400 { 86_400 - scene.query.arrival } else { scene.query.arrival };
    let (other, exact) = turned(&scene, departure);
    (exact && !scene.network.walks.is_empty()).then_some((scene, other))
}

/// What differs, if anything does: at every limit, with room for all and with held room of one slot less than the last state asks for.
pub fn differs<P: Program>(seed: u64, index: u64, program: &P) -> Option<String> {
    let (scene, other) = scenes(seed, index)?;
    let bytes = Bytes::of(&other.network, None);
    let all = Answer::read(&scene.run_case(u32::MAX).fast(Sound).answer).settled;
    for limit in 0..=all + 1 {
        let roomy = scene.run_case(limit);
        let held = Answer::read(&roomy.fast(Sound).answer).held as usize;
        for room in [roomy.held.len() / HELD, held.saturating_sub(1)] {
            let mut ordinary = roomy.clone();
            ordinary.held.resize(room * HELD, 7);
            let right = ordinary.fast(Sound);
            let case = run_case(&other, &bytes, limit, &ordinary);
            let got = case.by(program);
            if (&got.held, &got.settled, &got.answer) != (&right.held, &right.settled, &right.answer) {
                return Some(format!("limit {limit}, held room {room}\n{case:?}\nexpected\n{right:?}\ngot\n{got:?}"));
            }
            if let Some(text) = parts_differ(&scene, &other, &bytes, &right, program) {
                return Some(format!("limit {limit}\n{text}"));
            }
        }
    }
    None
}

fn run_case(scene: &Scene, bytes: &Bytes, limit: u32, as_lent: &Ordinary) -> Case {
    let Bytes { vertices, walks, hops, hop_size, list } = bytes.clone();
    let (held, settled, answer) = (as_lent.held.clone(), as_lent.settled.clone(), as_lent.answer.clone());
    let (entries, parts) = (Vec::new(), Vec::new());
    Case { kind: Kind::Run, null: false, vertices, walks, hops, hop_size, list, query: scene.query, limit, held, settled, entries, parts, answer }
}

/// A part by the ends of its walk, which are exchanged in the other network, and by both its ends counted from "from".
type Seen = (u32, u32, u32, u32, u32, bool);

fn seen(scene: &Scene, part: &Part, other_way: bool) -> Seen {
    let walk = scene.network.walks[part.record as usize];
    let own = part.record == scene.query.record;
    match other_way {
        false => (walk.from, walk.to, walk.length, part.start, part.end, own),
        true => (walk.to, walk.from, walk.length, walk.length - part.end, walk.length - part.start, own),
    }
}

/// The parts of the list that a run has left, on both sides: at each step the same places, in whatever order the records have.
fn parts_differ<P: Program>(scene: &Scene, other: &Scene, bytes: &Bytes, left: &Left, program: &P) -> Option<String> {
    let count = Answer::read(&left.answer).settled as usize;
    let list: Vec<Settled> = (0..count).map(|i| Settled::read(&left.settled, i)).collect();
    for entries in 0..=count {
        let ordinary = scene.parts_case(&list[..entries]);
        let right = ordinary.fast(Sound);
        let mut case = run_case(other, bytes, 0, &ordinary);
        case.kind = Kind::Parts;
        case.entries = left.settled[..entries * SETTLED].to_vec();
        case.parts = ordinary.parts.clone();
        case.answer = ordinary.parts_answer.clone();
        let got = case.by(program);
        let places = |scene: &Scene, bytes: &[u8], answer: &[u8], other_way: bool| {
            let count = PartsAnswer::read(answer).parts as usize;
            let mut all: Vec<Seen> = (0..count).map(|i| seen(scene, &Part::read(bytes, i), other_way)).collect();
            all.sort();
            all
        };
        let (right, got) = (places(scene, &right.parts, &right.parts_answer, false), places(other, &got.parts, &got.answer, true));
        if right != got {
            return Some(format!("parts of {entries} entries\n{case:?}\nexpected\n{right:?}\ngot\n{got:?}"));
        }
    }
    None
}
