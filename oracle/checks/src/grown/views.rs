//! The terms that the rows are written in.
use model::{State, Tx};
pub use model::{external, running};

pub fn te(s: &State) -> bool {
    s.scr & 0x20 != 0
}
pub fn re(s: &State) -> bool {
    s.scr & 0x10 != 0
}
pub fn clocked(s: &State) -> bool {
    s.smr & 0x80 != 0
}
pub fn tdre(s: &State) -> bool {
    s.ssr & 0x80 != 0
}
pub fn tend(s: &State) -> bool {
    s.ssr & 4 != 0
}
pub fn faulty(s: &State) -> bool {
    s.ssr & 0x38 != 0
}
/// Data and tail without a due half are clocked, whatever their word.
pub fn clocked_sender(s: &State) -> bool {
    matches!(
        s.tx,
        Some(Tx::Data { next: None, .. } | Tx::Tail { next: None, .. })
    )
}
pub fn clocked_receiver(s: &State) -> bool {
    s.rx.is_some_and(|rx| rx.format.synchronous)
}
pub fn start_stop_receiver(s: &State) -> bool {
    s.rx.is_some_and(|rx| !rx.format.synchronous)
}
/// The reference's `sync_needed`, from its words.
pub fn clocked_work(s: &State) -> bool {
    clocked_sender(s) || (re(s) && !faulty(s) && (clocked(s) || clocked_receiver(s)))
}
