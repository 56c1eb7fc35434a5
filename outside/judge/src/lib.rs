//! The written rules of Siltbrow once more, independent of the library.
//!
//! `fast` follows them with a heap and arrays, `slow` computes every answer
//! straight from the definitions. The two share the record types in `records`
//! and nothing else, so that one can judge the other, and both the library.

pub mod c;
pub mod cases;
pub mod commands;
pub mod evening;
pub mod fast;
pub mod marked;
pub mod mutant;
pub mod network;
pub mod outcome;
pub mod pair;
pub mod records;
pub mod rng;
pub mod show;
pub mod slow;
pub mod trips;
pub mod wire;
pub mod wrong;
