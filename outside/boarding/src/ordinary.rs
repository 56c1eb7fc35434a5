//! What the mode owes the ordinary run, and itself at other boarding times. The ordinary program knows nothing of rides.

use outside::mutant::Sound;
use outside::records::{Answer, Settled};

use crate::call::{Case, Program};
use crate::cases::Ground;

/// With boarding time 0 the list of every limit is that of the ordinary run, in every byte, whatever the trips; so is the refusal of a list that has no room.
pub fn differs<P: Program>(ground: &Ground, program: &P) -> Option<String> {
    let scene = &ground.ridden.scene;
    if scene.network.walks.is_empty() {
        return None;
    }
    let own = |limit: u32, room: usize| Case { boarding: 0, limit, settled: vec![7; 8 * room], ..ground.roomy() };
    let all = Answer::read(&scene.run_case(u32::MAX).fast(Sound).answer).settled;
    for limit in (0..=all + 1).chain([u32::MAX]) {
        for room in [all as usize + 2, limit.min(all) as usize, limit.min(all).saturating_sub(1) as usize] {
            let mut ordinary = scene.run_case(limit);
            ordinary.settled = vec![7; 8 * room];
            let right = ordinary.fast(Sound);
            let case = own(limit, room);
            let got = case.by(program);
            let told = Answer { held: 0, ..Answer::read(&right.answer) };
            if (&got.settled, Answer::read(&got.answer)) != (&right.settled, told) || got.scratch.iter().any(|&byte| byte != 0) {
                return Some(format!("limit {limit}, room {room}\n{case:?}\nexpected\n{right:?}\ngot\n{got:?}"));
            }
        }
    }
    None
}

/// Of two boarding times the longer lists no vertex that the shorter does not, and none nearer.
pub fn grows<P: Program>(ground: &Ground, program: &P) -> Option<String> {
    let list = |boarding: u32| -> Vec<Settled> {
        let case = Case { boarding, ..ground.roomy() };
        let after = case.by(program);
        (0..Answer::read(&after.answer).settled as usize).map(|i| Settled::read(&after.settled, i)).collect()
    };
    let times = [0, 1, 2, 3, 5, 8, ground.ridden.boarding, 600];
    let mut times: Vec<u32> = times.to_vec();
    times.sort();
    let lists: Vec<Vec<Settled>> = times.iter().map(|&boarding| list(boarding)).collect();
    for (two, times) in lists.windows(2).zip(times.windows(2)) {
        let nearer = |entry: &&Settled| !two[0].iter().any(|other| other.vertex == entry.vertex && other.distance <= entry.distance);
        if let Some(entry) = two[1].iter().find(nearer) {
            return Some(format!("{entry:?} with {} s and not with {} s\n{:?}", times[1], times[0], ground.ridden));
        }
    }
    None
}
