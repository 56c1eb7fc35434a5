//! `outside bench`: how long the fast program takes.

use std::hint::black_box;
use std::time::{Duration, Instant};

use crate::mutant::Sound;
use crate::network::{full_scene, grid_scene, Scene};
use crate::outcome::{Case, Fast, Program};
use crate::pair::OneRun;
use crate::records::{Answer, PartsAnswer, Settled};

/// The networks measured, with names: the city grid and the largest there is.
pub fn city_scenes() -> Vec<(String, Scene)> {
    let scene = |name: &str, scene| (name.to_string(), scene);
    vec![
        scene("grid 200x200, 15 min", grid_scene(200, 40_000, 20_000, 900)),
        scene("grid 200x200, 2 h", grid_scene(200, 40_000, 20_000, 7_200)),
        scene("full size, 10 min", full_scene(600)),
        scene("full size, 2 h", full_scene(7_200)),
    ]
}

/// A row of growing grids with hops and window in one proportion.
pub fn growing_scenes() -> Vec<(String, Scene)> {
    let scene = |vertices: usize| {
        let width = (vertices as f64).sqrt() as usize;
        let scene = grid_scene(width, vertices, vertices / 2, 86_400);
        (format!("grown to {vertices}"), scene)
    };
    let sizes = [1_000, 2_000, 4_000, 8_000, 16_000, 32_000, 65_536];
    sizes.into_iter().map(scene).collect()
}

pub fn run(rounds: usize) -> Result<(), String> {
    println!("medians of {rounds} rounds in ms; every call but the check checks the tables first");
    println!(
        "{:<21}{:>9}{:>9}{:>9}{:>9}{:>9}{:>8}{:>9}{:>9}{:>9}{:>9}{:>9}",
        "network",
        "vertices",
        "walks",
        "hops",
        "settled",
        "parts",
        "held",
        "check",
        "run",
        "parts",
        "both",
        "one run"
    );
    for (name, scene) in city_scenes().into_iter().chain(growing_scenes()) {
        println!("{name:<21}{}", line(&scene, rounds));
    }
    Ok(())
}

/// The counts of a network, and the times of each call and of the one run.
fn line(scene: &Scene, rounds: usize) -> String {
    let network = &scene.network;
    let pair = scene.pair_case(u32::MAX);
    let after = pair.fast(Sound);
    let six = Answer::read(&after.answer);
    let parts = scene.parts_case(&own_list(&after.settled, six));
    let calls = [network.check_case(), scene.run_case(u32::MAX), parts];
    let fast = |case: &Case| median(rounds, || time(case, &Fast(Sound)));
    let mut times: Vec<Duration> = calls.iter().chain([&pair]).map(fast).collect();
    times.push(median(rounds, || time(&pair, &OneRun)));
    let times = times.iter().map(|time| time.as_secs_f64() * 1e3);
    let times: String = times.map(|ms| format!("{ms:>9.3}")).collect();
    format!(
        "{:>9}{:>9}{:>9}{:>9}{:>9}{:>8}{times}",
        network.vertices.len(),
        network.walks.len(),
        network.hops.len(),
        six.settled,
        PartsAnswer::read(&after.parts_answer).parts,
        six.held,
    )
}

/// The entries that a run wrote.
pub fn own_list(settled: &[u8], six: Answer) -> Vec<Settled> {
    let entry = |i| Settled::read(settled, i as usize);
    (0..six.settled).map(entry).collect()
}

fn median(rounds: usize, mut once: impl FnMut() -> Duration) -> Duration {
    middle((0..rounds.max(1)).map(|_| once()).collect())
}

/// The median of some times.
pub fn middle(mut times: Vec<Duration>) -> Duration {
    times.sort();
    times[times.len() / 2]
}

fn time<P: Program>(case: &Case, program: &P) -> Duration {
    let mut after = case.before();
    let start = Instant::now();
    black_box(case.call_in(program, &mut after));
    start.elapsed()
}
