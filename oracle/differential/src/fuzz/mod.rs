//! Fuzzing: any bytes as a start, a log and a script, played on both sides.
//! The program `fuzz` is libFuzzer's target; all else is here, so that it is
//! tested without libFuzzer.
pub mod altered;
pub mod input;
pub mod mutate;
pub mod play;
pub mod seeds;
