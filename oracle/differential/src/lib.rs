//! The oracle and the proved port, compared call by call. Each call is made on
//! both; then the answer, every field of the state, the transmit level, the
//! clock drive, the receive enable and the interrupt request must be the same.
//! `scripts` compares whole scripts, `words` every word, and `fuzz` plays
//! arbitrary bytes.
pub mod alter;
#[cfg(feature = "capi")]
pub mod capi;
pub mod compare;
pub mod coverage;
pub mod document;
pub mod fuzz;
pub mod layout;
pub mod lists;
pub mod port;
pub mod program;
pub mod run;
pub mod scripts;
pub mod shrink;
pub mod states;
pub mod words;

pub use port::{OraclePort, Pins, Port, Shown};
