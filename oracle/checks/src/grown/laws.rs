//! What holds in every grown state.
use super::views::*;
use model::{Oracle, State, Tx, field_test};

/// `None` where the row says nothing of a state.
pub type Law = fn(&State) -> Option<bool>;

pub const LAWS: [(&str, Law); 24] = [
    ("the field test", |s| Some(field_test(s).is_ok())),
    (
        "clocked receiver: position 1 to 7, parity bit 0, error 0",
        |s| {
            s.rx.filter(|rx| rx.format.synchronous)
                .map(|rx| (1..=7).contains(&rx.position) && !rx.parity && rx.error == 0)
        },
    ),
    (
        "start-stop receiver: position -2 to 9 (data plus parity)",
        |s| {
            s.rx.filter(|rx| !rx.format.synchronous).map(|rx| {
                (-2..=9).contains(&rx.position)
                    && rx.position <= (rx.format.data + u8::from(rx.format.parity)) as i8
            })
        },
    ),
    (
        "receiver error: 8 only, at the stop cell of a word with parity",
        |s| {
            s.rx.filter(|rx| rx.error != 0).map(|rx| {
                rx.error == 8 && rx.format.parity && rx.position == rx.format.data as i8 + 1
            })
        },
    ),
    ("receiver present: RE on, no error flag", |s| {
        s.rx.map(|_| re(s) && !faulty(s))
    }),
    ("receiver value below its position; its parity bit", |s| {
        s.rx.map(|rx| {
            let odd = rx.value.count_ones() % 2 == 1;
            u16::from(rx.value) >> rx.position.max(0) == 0
                && (rx.format.synchronous || rx.parity == odd)
        })
    }),
    (
        "start-stop receiver below position 1: value, parity bit, error 0",
        |s| {
            s.rx.filter(|rx| !rx.format.synchronous && rx.position < 1)
                .map(|rx| rx.value == 0 && !rx.parity && rx.error == 0)
        },
    ),
    ("TE off: no sender, nothing held, SSR has 84, uart 1", |s| {
        (!te(s)).then(|| s.tx.is_none() && s.holding.is_none() && s.ssr & 0x84 == 0x84 && s.uart)
    }),
    ("TDRE clear exactly while a byte is held", |s| {
        Some(tdre(s) == s.holding.is_none())
    }),
    ("TEND set: TDRE set", |s| tend(s).then(|| tdre(s))),
    (
        "TEND set and TE on: no sender, mark, or tail without a word",
        |s| {
            let fits = matches!(
                s.tx,
                None | Some(Tx::Mark { .. } | Tx::Tail { loaded: None, .. })
            );
            (tend(s) && te(s)).then_some(fits)
        },
    ),
    (
        "no sender, TE on: TEND clear exactly while held, then clocked and an error flag",
        |s| {
            (s.tx.is_none() && te(s)).then(|| {
                let held = s.holding.is_some();
                tend(s) != held && (!held || (clocked(s) && faulty(s)))
            })
        },
    ),
    ("blocked: clocked word, an error flag set", |s| match s.tx {
        Some(Tx::Blocked { character }) => Some(character.format.synchronous && faulty(s)),
        _ => None,
    }),
    ("mark: uart 1", |s| {
        matches!(s.tx, Some(Tx::Mark { .. })).then_some(s.uart)
    }),
    (
        "start: start-stop word, due half a multiple of its cell",
        |s| match s.tx {
            Some(Tx::Start { character: c, next }) => {
                Some(!c.format.synchronous && next.is_multiple_of(c.format.half_bit))
            }
            _ => None,
        },
    ),
    (
        "data start-stop: uart is the cell's bit, bit_start due less a cell",
        |s| match s.tx {
            Some(Tx::Data {
                character: c,
                cell,
                next: Some(next),
            }) => {
                Some(s.uart == (c.word >> cell & 1 != 0) && s.bit_start == next - c.format.half_bit)
            }
            _ => None,
        },
    ),
    (
        "tail: TEND set exactly without a word; then nothing is held",
        |s| match s.tx {
            Some(Tx::Tail { loaded, .. }) => {
                Some(tend(s) == loaded.is_none() && (loaded.is_some() || s.holding.is_none()))
            }
            _ => None,
        },
    ),
    (
        "tail with due half: uart 1, bit_start due less 16, 32 or 64",
        |s| match s.tx {
            Some(Tx::Tail {
                next: Some(next), ..
            }) => Some(s.uart && matches!(next - s.bit_start, 16 | 32 | 64)),
            _ => None,
        },
    ),
    (
        "sync_next present exactly when internal and clocked work stands",
        |s| Some(s.sync_next.is_some() == (!external(s) && clocked_work(s))),
    ),
    ("internal clock and sck 0: sync_next present", |s| {
        (!external(s) && !s.sck).then(|| s.sync_next.is_some())
    }),
    ("seen bits other than TEND are set in SSR", |s| {
        Some(s.seen & !s.ssr & !4 == 0)
    }),
    ("half count 0: edge bit 0", |s| {
        (s.half == 0).then_some(!s.edge)
    }),
    (
        "module off: fresh but for power, seen, pins and tallies",
        |s| {
            (!s.module).then(|| {
                let fresh = State {
                    main: s.main,
                    sub: s.sub,
                    reset_mode: s.reset_mode,
                    seen: s.seen,
                    input: s.input,
                    input_clock: s.input_clock,
                    transmitted: s.transmitted,
                    received: s.received,
                    ..Oracle::fresh().state()
                };
                *s == fresh
            })
        },
    ),
    (
        "reset mode: half count 0, SSR 84, no sender, no receiver",
        |s| {
            s.reset_mode
                .then(|| s.half == 0 && s.ssr == 0x84 && s.tx.is_none() && s.rx.is_none())
        },
    ),
];
