//! Whole scripts on the oracle and on a player, compared at their ends: the
//! number and its offset, every byte of the log, every field of the state.
pub mod calls;
pub mod compare;
pub mod coverage;
pub mod list;
pub mod make;
pub mod player;
#[cfg(feature = "player")]
pub mod proved;
pub mod run;
pub mod shrink;
pub mod writes;
