//! What is checked on the oracle: the findings of docs/DIFFERENCES.md, document
//! 01's own cases, and tables of grown states. Each check of the first two is a
//! figure from the paper beside what the reference gave, both as text, so that
//! a line shows both.
pub mod document;
pub mod findings;
pub mod grown;
mod tools;

pub use tools::{Part, printed};
