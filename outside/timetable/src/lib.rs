//! The reader of operators' timetables by the written rules, independent of the library: `plain` follows the definitions
//! with lists and comparisons of all with all, `quick` has hash maps and one sort. They share the types in `call` alone.

pub mod call;
pub mod cases;
pub mod exchange;
pub mod plain;
pub mod quick;
pub mod wrong;
