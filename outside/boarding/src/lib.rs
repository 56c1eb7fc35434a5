//! The run with a boarding time (RULES 29), independent of the library: `plain` asks the definitions, `quick` has a heap and arrays, `mapped` a heap and hash maps.
//! They share the records of `outside` and refusals of tables and query that it judges in two ways itself.

pub mod call;
pub mod cases;
pub mod definitions;
pub mod exchange;
pub mod journeys;
pub mod mapped;
pub mod marked;
pub mod ordinary;
pub mod plain;
pub mod quick;
pub mod rounds;
pub mod scenes;
pub mod wrong;
