//! Seeded cases: groups of calls on one small network each, jobs, and a few
//! fixed cases at the limits of the tables.

pub mod big;
mod big_lists;
mod big_trips;
pub mod bought;
pub mod damage;
pub mod fuzz;
pub mod groups;
pub mod hopeless;
pub mod hubs;
pub mod jobs;
pub mod lists;
pub mod many;
pub mod patients;
pub mod small;
pub mod trips;

use crate::outcome::Case;

/// The cases of a seed, in an order that does not depend on how many are
/// asked for.
pub fn stream(seed: u64) -> impl Iterator<Item = Case> {
    (0..).flat_map(move |index| groups::group(seed, index))
}

#[cfg(test)]
mod tests;
