//! The frame for the map by the written rules, independent of the library: the rules in two ways, wrong versions of them, and cases.

pub mod cases;
pub mod rules;
pub mod wrong;
