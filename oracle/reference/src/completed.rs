//! What the reference's `complete_receive` was given, told by a wrapper around
//! it (build.rs, appended/mcu/sci.rs). A thread steps one port at a time.
use std::cell::Cell;

/// A whole word at the moment of its completion.
#[derive(Clone, Copy, Debug, PartialEq, Eq)]
pub struct Completed {
    /// SSR before it.
    pub ssr: u8,
    /// Its own error bits.
    pub error: u8,
}

thread_local! {
    static LAST: Cell<Option<Completed>> = const { Cell::new(None) };
}

pub(crate) fn tell(word: Completed) {
    LAST.set(Some(word));
}

/// The last word that was completed on this thread since this was asked.
pub fn take_completed() -> Option<Completed> {
    LAST.take()
}
