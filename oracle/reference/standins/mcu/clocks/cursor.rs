//! Stand-in: the clocks re-export these two and use neither.
pub(crate) struct CpuCursor;
pub(crate) struct CpuWindow;
