//! How far due halves lie ahead of the half count.
use model::{State, Tx};

/// The due half that the row is about, where the state has it.
pub type Ahead = fn(&State) -> Option<u32>;

/// The sender's due half in a data cell of the given length.
fn data_due(s: &State, cell: u32) -> Option<u32> {
    match s.tx {
        Some(Tx::Data {
            character, next, ..
        }) if character.format.half_bit == cell => next,
        _ => None,
    }
}
/// The receiver's due half at positions in the range, by cell length.
fn receive_due(s: &State, positions: std::ops::RangeInclusive<i8>, cell: u32) -> Option<u32> {
    s.rx.filter(|rx| positions.contains(&rx.position) && rx.format.half_bit == cell)
        .and_then(|rx| rx.next)
}

/// Row, the notes' least and greatest, the due half.
pub const AHEAD: [(&str, (u32, u32), Ahead); 11] = [
    ("tx mark", (1, 416), |s| match s.tx {
        Some(Tx::Mark { next }) => Some(next),
        _ => None,
    }),
    ("tx start", (1, 32), |s| match s.tx {
        Some(Tx::Start { next, .. }) => Some(next),
        _ => None,
    }),
    ("tx data, cell 16", (1, 16), |s| data_due(s, 16)),
    ("tx data, cell 32", (1, 32), |s| data_due(s, 32)),
    ("tx tail", (1, 64), |s| match s.tx {
        Some(Tx::Tail { next, .. }) => next,
        _ => None,
    }),
    ("rx position -2", (1, 2), |s| {
        s.rx.filter(|rx| rx.position == -2).and_then(|rx| rx.next)
    }),
    ("rx position -1, cell 16", (1, 7), |s| {
        receive_due(s, -1..=-1, 16)
    }),
    ("rx position -1, cell 32", (1, 15), |s| {
        receive_due(s, -1..=-1, 32)
    }),
    ("rx position 0 and on, cell 16", (1, 16), |s| {
        receive_due(s, 0..=9, 16)
    }),
    ("rx position 0 and on, cell 32", (1, 32), |s| {
        receive_due(s, 0..=9, 32)
    }),
    ("sync_next", (1, 2), |s| s.sync_next),
];
