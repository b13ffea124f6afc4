//! The proved port and the reference, timed and counted in one run: the same
//! scripts from the same states, and a figure only where both end the same.
pub mod cases;
mod clock;
pub mod counting;
pub mod measure;
#[cfg(feature = "player")]
mod ours;
pub mod play;
pub mod port;
pub mod process;
pub mod program;
pub mod report;
mod rounds;
pub mod sides;
pub mod table;
pub mod timing;
