//! The reference of the port, compiled from the reference folder (see
//! build.rs): its files as they are, accessors appended to two of them, and
//! stand-ins for what was not published with it. Of sci.rs one function is
//! renamed: a wrapper of its old name calls it and tells what it was given.
//!
//! The port is compiled twice: in `mcu` on its own clocks, in `counters` on the
//! stand-in of two counters. `AnySci` is what both have.
//!
//! What is ours: the stand-ins, `snapshot`, `completed`, and what build.rs appends to the
//! copies of sci.rs and baud.rs: `AnySci`, whose methods beyond the reference's
//! own begin with `oracle_`.
mod any;
mod completed;
mod error;
mod snapshot;
mod state;

include!(concat!(env!("OUT_DIR"), "/tree/modules.rs"));

pub use any::AnySci;
pub use completed::{Completed, take_completed};
pub use error::Error;
pub use mcu::clocks::{Clocks, Frequencies};
pub use mcu::sci::{Pins, Sci};
pub use signals::Drive;
pub use snapshot::{Character, Format, Rx, State, Tx};
pub use time::Time;
