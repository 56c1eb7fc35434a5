//! Measures the library beside the independent Rust program, and draws how
//! many vertices it holds. Both are called in the same way, by `Program`, and
//! every answer of the one is held against the other's.

pub mod boardings;
pub mod bought;
pub mod checks;
pub mod clock;
pub mod couriers;
pub mod evening;
pub mod figures;
pub mod flat;
pub mod frames;
pub mod growth;
pub mod hard;
pub mod heap;
pub mod hubs;
pub mod limit;
pub mod machine;
pub mod many;
pub mod moves;
pub mod networks;
pub mod page;
pub mod patients;
pub mod picture;
pub mod program;
pub mod room;
pub mod speed;
pub mod stall;
pub mod stalling;
pub mod timetables;
