//! Towns and cities by names. A text or two CSV files become tables with all
//! their numbers; the proved program or the proved library is asked; what it
//! answers is told in words and drawn. Nothing is decided here: what is covered
//! and what is refused comes from the program or the library alone.

pub mod commands;
pub mod csv;
pub mod draw;
pub mod oracle;
pub mod quantity;
pub mod refusal;
pub mod tables;
pub mod tell;
pub mod text;
pub mod town;
