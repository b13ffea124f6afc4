//! What is reached, though one might not expect it, and what never is.
use super::views::*;
use model::{State, Tx, format};

pub type Seen = fn(&State) -> bool;

/// Whether the sender's data is of this form.
fn data_form(s: &State, synchronous: bool) -> bool {
    matches!(s.tx, Some(Tx::Data { character, .. }) if character.format.synchronous == synchronous)
}
/// A tail of one form that has loaded a word of the other.
fn mixed_tail(s: &State, clocked_tail: bool) -> bool {
    matches!(s.tx, Some(Tx::Tail { loaded: Some(c), next })
        if next.is_none() == clocked_tail && c.format.synchronous != clocked_tail)
}

/// Row, whether the notes say that it is reached, the states meant.
pub const MET: [(&str, bool, Seen); 19] = [
    ("clocked word in the receiver, SMR start-stop", true, |s| {
        clocked_receiver(s) && !clocked(s)
    }),
    ("start-stop word in the receiver, SMR clocked", true, |s| {
        start_stop_receiver(s) && clocked(s)
    }),
    (
        "receiver empty, RE, no error flag, start-stop, line at space",
        true,
        |s| {
            let space = s.input == (s.spcr & 1 != 0);
            s.rx.is_none() && re(s) && !faulty(s) && !format(s.smr, s.semr).synchronous && space
        },
    ),
    ("start-stop data, SMR clocked", true, |s| {
        data_form(s, false) && clocked(s)
    }),
    ("clocked data, SMR start-stop", true, |s| {
        data_form(s, true) && !clocked(s)
    }),
    ("mark, SMR clocked", true, |s| {
        matches!(s.tx, Some(Tx::Mark { .. })) && clocked(s)
    }),
    ("clocked tail with a start-stop word", true, |s| {
        mixed_tail(s, true)
    }),
    ("start-stop tail with a clocked word", true, |s| {
        mixed_tail(s, false)
    }),
    ("no sender and uart 0", true, |s| s.tx.is_none() && !s.uart),
    ("start and uart 0", true, |s| {
        matches!(s.tx, Some(Tx::Start { .. })) && !s.uart
    }),
    ("seen TEND, SSR without it", true, |s| {
        s.seen & 4 != 0 && !tend(s)
    }),
    (
        "external and running, phase unlike the clock pin",
        true,
        |s| external(s) && running(s) && s.high != s.input_clock,
    ),
    ("phase and half count of different parity", true, |s| {
        s.high != s.half.is_multiple_of(2)
    }),
    ("edge bit set while stopped", true, |s| {
        s.edge && !running(s)
    }),
    ("module off, seen not 0", true, |s| !s.module && s.seen != 0),
    ("clocked receiver at position 0", false, |s| {
        s.rx.is_some_and(|rx| rx.format.synchronous && rx.position == 0)
    }),
    (
        "blocked start-stop word",
        false,
        |s| matches!(s.tx, Some(Tx::Blocked { character }) if !character.format.synchronous),
    ),
    (
        "clocked word in start",
        false,
        |s| matches!(s.tx, Some(Tx::Start { character, .. }) if character.format.synchronous),
    ),
    ("SPCR other than C0 with the module off", false, |s| {
        !s.module && s.spcr != 0xc0
    }),
];
