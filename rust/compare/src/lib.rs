//! Two implementations of the same rules, the proved library and the plain
//! one, given the same calls: what they answer, write and keep must be equal.

#![forbid(unsafe_code)]

pub mod call;
pub mod count;
pub mod delivery;
pub mod duel;
pub mod extremes;
pub mod generate;
pub mod plain_side;
pub mod play;
pub mod random;
pub mod script;
pub mod shrink;
pub mod side;
pub mod subject;
pub mod udalopek_side;
