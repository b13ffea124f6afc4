//! Refusal 8: the field test of document 01, clause by clause in its order,
//! and of document 02. The reference has no such test (its `validate` asks less).
use crate::frame::{exists, holds};
use reference::{Character, State, Tx};

/// The greatest half count.
pub const LIMIT: u32 = 4_000_000_000;
/// The greatest total of a clock's cycles.
pub const CYCLES: u64 = 281_474_976_710_656;
/// How far above the half count a due half may lie.
const REACH: u32 = 448;

/// The first clause that fails, in document 01's words, if one does.
pub fn field_test(s: &State) -> Result<(), &'static str> {
    failed_clauses(s).next().map_or(Ok(()), Err)
}

/// Every clause that fails.
pub fn failed_clauses(s: &State) -> impl Iterator<Item = &'static str> {
    let clauses = [
        (s.half <= LIMIT, "half count"),
        (registers(s), "register bit that cannot be stored"),
        (words(s), "format or word that nothing gives"),
        (cell(s), "transmit cell"),
        (position(s), "receive position"),
        (
            s.rx.is_none_or(|rx| matches!(rx.error, 0 | 8)),
            "receive error",
        ),
        (s.bit_start <= s.half, "bit_start"),
        (due_halves(s), "due half"),
        (due_presence(s), "due half present or absent"),
        ((1..=256).contains(&s.remaining), "ticks left"),
        (s.system <= CYCLES, "system cycles"),
        (s.watch <= CYCLES, "watch cycles"),
    ];
    clauses
        .into_iter()
        .filter(|(holds, _)| !holds)
        .map(|(_, clause)| clause)
}

fn registers(s: &State) -> bool {
    s.spcr & !0x13 == 0xc0
        && s.scr & 8 == 0
        && s.semr & !8 == 0
        && s.ircr & !0x70 == 0
        && s.ssr & 3 == 0
        && s.seen & 3 == 0
}

/// The sender's word, where its state has one.
fn sent(tx: Tx) -> Option<Character> {
    match tx {
        Tx::Blocked { character } | Tx::Start { character, .. } | Tx::Data { character, .. } => {
            Some(character)
        }
        Tx::Tail { loaded, .. } => loaded,
        Tx::Mark { .. } => None,
    }
}

fn words(s: &State) -> bool {
    s.tx.and_then(sent)
        .is_none_or(|c| exists(c.format) && holds(c.format, c.word))
        && s.rx.is_none_or(|rx| exists(rx.format))
}

fn cell(s: &State) -> bool {
    let Some(Tx::Data {
        character, cell, ..
    }) = s.tx
    else {
        return true;
    };
    if character.format.synchronous {
        cell <= 7
    } else {
        // In 16 bits: the format may be one that does not exist.
        let f = character.format;
        u16::from(cell) < 1 + u16::from(f.data) + u16::from(f.parity)
    }
}

fn position(s: &State) -> bool {
    s.rx.is_none_or(|rx| {
        if rx.format.synchronous {
            (0..=7).contains(&rx.position)
        } else {
            let last = i16::from(rx.format.data) + i16::from(rx.format.parity);
            (-2..=last).contains(&i16::from(rx.position))
        }
    })
}

/// The sender's due half, where its state has one.
fn sender_due(tx: Tx) -> Option<u32> {
    match tx {
        Tx::Blocked { .. } => None,
        Tx::Mark { next } | Tx::Start { next, .. } => Some(next),
        Tx::Data { next, .. } | Tx::Tail { next, .. } => next,
    }
}

fn due_halves(s: &State) -> bool {
    [
        s.tx.and_then(sender_due),
        s.rx.and_then(|rx| rx.next),
        s.sync_next,
    ]
    .into_iter()
    .flatten()
    .all(|due| {
        due.checked_sub(s.half)
            .is_some_and(|above| (1..=REACH).contains(&above))
    })
}

/// Mark and start cannot lack theirs, by their type; tail and the clocked
/// edge may.
fn due_presence(s: &State) -> bool {
    let data = match s.tx {
        Some(Tx::Data {
            character, next, ..
        }) => next.is_some() != character.format.synchronous,
        _ => true,
    };
    data && s
        .rx
        .is_none_or(|rx| rx.next.is_some() != rx.format.synchronous)
}
