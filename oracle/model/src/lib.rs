//! Documents 01 and 02 around the reference. The reference has the port; what
//! is added here is written from the documents alone: the field test, the
//! refusals, the direct calls over time, the script player and its lines.
pub mod document;
mod field_test;
mod frame;
mod oracle;
pub mod registers;
mod rules;
pub mod sample;
mod script;
mod timed;

pub use field_test::{CYCLES, LIMIT, failed_clauses, field_test};
pub use frame::{cells, format, stop, word};
pub use oracle::{Answer, ClockDrive, Fault, Habits, Oracle, Pass, SECOND, Setup};
pub use reference::{Character, Format, Rx, State, Tx};
pub use rules::{
    Clock, cause, choice, counting, cycles, external, halves, ranges, refusal, running, total,
};
pub use script::{
    Command, Decoded, End, LOG, RECORD, Run, SCRIPT, bytes, commands, decode, line, play,
};
