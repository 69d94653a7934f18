//! What the tools share: the line language, the two oracles' answers in it, and the query makers.
pub mod answers;
pub mod kept;
pub mod lines;
pub mod queries;
pub mod random;
pub mod tables;
pub mod untouched;
