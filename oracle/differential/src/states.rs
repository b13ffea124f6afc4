//! Given states: any that pass the field test, with calls aimed at what they
//! hold, and states that fail it in exactly one clause.
use crate::{
    compare::{Case, Start},
    lists::{UNKNOWN, halves_apart, refused},
};
use model::{
    CYCLES, Clock, Command, Format, LIMIT, State, Tx, choice, failed_clauses,
    registers::{BRR, RDR, SCR, SMR, SSR, TDR},
    sample::{self, Random},
    total,
};

/// The furthest from the limit that a near state stands.
const NEAR: u32 = 70_000;

/// The state with its half count moved, and all halves in it likewise.
pub fn moved(s: &State, half: u32) -> State {
    let from = s.half;
    let shift = |due: u32| due.wrapping_sub(from).wrapping_add(half);
    let mut moved = *s;
    moved.half = half;
    // A cell cannot have begun before the count's own beginning.
    moved.bit_start = half - from.wrapping_sub(s.bit_start).min(half);
    moved.sync_next = s.sync_next.map(shift);
    moved.tx = s.tx.map(|mut tx| {
        match &mut tx {
            Tx::Blocked { .. } => {}
            Tx::Mark { next } | Tx::Start { next, .. } => *next = shift(*next),
            Tx::Data { next, .. } | Tx::Tail { next, .. } => *next = next.map(shift),
        }
        tx
    });
    moved.rx = s.rx.map(|mut rx| {
        rx.next = rx.next.map(shift);
        rx
    });
    moved
}

/// A state with something likely about it: it runs, its sides are on.
fn state(r: &mut Random) -> State {
    let mut s = sample::state(r);
    if r.bit() {
        s.module = true;
        s.main = true;
        s.reset_mode = false;
    }
    if r.bit() {
        s.scr |= r.pick(&[0x20, 0x10, 0x30, 0x30]);
        s.scr &= r.pick(&[0xff, 0xfd]);
    }
    if r.one_in(4) {
        // Sent and received words of the format that stands.
        let f = model::format(s.smr, s.semr);
        if let Some(Tx::Data { character, .. }) = &mut s.tx {
            let same = character.format.synchronous == f.synchronous;
            if same && character.format.data == f.data && character.format.parity == f.parity {
                character.format = f;
                character.word = model::word(f, r.byte());
            }
        }
    }
    // On the boundary of a cell, with the edge bit or without.
    if r.one_in(4) {
        let cell = 16 << r.below(2);
        s = moved(&s, s.half / cell * cell);
    }
    s
}

/// The due halves of a state.
fn dues(s: &State) -> Vec<u32> {
    let sender = match s.tx {
        None | Some(Tx::Blocked { .. }) => None,
        Some(Tx::Mark { next } | Tx::Start { next, .. }) => Some(next),
        Some(Tx::Data { next, .. } | Tx::Tail { next, .. }) => next,
    };
    [sender, s.rx.and_then(|rx| rx.next), s.sync_next]
        .into_iter()
        .flatten()
        .collect()
}

/// The kind of a clock's cycles.
fn kind_of(clock: Clock) -> u32 {
    match clock {
        Clock::System => 8,
        Clock::Watch => 9,
    }
}

/// The cycles of the chosen clock up to so many halves from now, if the port
/// counts.
fn up_to(s: &State, halves: u32) -> u64 {
    let (clock, divider) = choice(s);
    let Some(more) = halves.checked_sub(1) else {
        return 0;
    };
    let ticks = u64::from(s.remaining) + u64::from(more) * (u64::from(s.brr) + 1);
    ticks * divider - total(s, clock) % divider
}

/// Cycles aimed at a half of the state, at one that is due, or at the greatest
/// total; one fewer, just so, or one more.
fn aimed_cycles(r: &mut Random, s: &State) -> Command {
    let (clock, _) = choice(s);
    let (clock, to) = match r.below(8) {
        0 => {
            let clock = r.pick(&[Clock::System, Clock::Watch]);
            (clock, CYCLES - total(s, clock))
        }
        1..4 => {
            let halves = match dues(s).as_slice() {
                [] => 2,
                dues => r.pick(dues) - s.half,
            };
            (clock, up_to(s, halves))
        }
        4 => (clock, up_to(s, 2)),
        _ => (clock, up_to(s, 1)),
    };
    let near = (to + u64::from(r.below(3))).saturating_sub(1);
    // A long one is dear, so it is rare.
    let most = if r.one_in(64) { 0xffff } else { 1000 };
    Command {
        kind: kind_of(clock),
        a: near.min(most) as u32,
        b: 0,
    }
}

/// Near both limits or one: cycles up to the greatest total and past it, and
/// up to the greatest half count and past it.
fn near_in_cycles(r: &mut Random, s: &mut State) -> Vec<Command> {
    let halves = r.below(4);
    *s = moved(s, LIMIT - halves);
    if !r.one_in(8) {
        s.brr = r.below(8) as u8;
        s.remaining = 1 + r.below(20) as u16;
    }
    let (clock, _) = choice(s);
    let to = up_to(s, halves);
    let (kind, to) = match r.below(4) {
        // The greatest total just there, before it or behind it.
        0 | 1 => {
            let most = CYCLES - (to + u64::from(r.below(3))).saturating_sub(1);
            match clock {
                Clock::System => s.system = most,
                Clock::Watch => s.watch = most,
            }
            (kind_of(clock), up_to(s, halves))
        }
        2 => {
            let (left, clock) = (r.below(200), r.pick(&[Clock::System, Clock::Watch]));
            match clock {
                Clock::System => s.system = CYCLES - u64::from(left),
                Clock::Watch => s.watch = CYCLES - u64::from(left),
            }
            (kind_of(clock), left.into())
        }
        _ => (kind_of(clock), to),
    };
    let beyond = up_to(s, halves + 1);
    // Above its range, 2 comes before 10 and 4.
    let above = if r.one_in(4) { 0x1_0000 } else { to };
    let mut tries = vec![
        above,
        to,
        to + 1,
        to.saturating_sub(1),
        beyond.saturating_sub(1),
        beyond,
    ];
    tries.retain(|_| r.bit());
    let call = |n: u64| Command {
        kind,
        a: n.min(0x1_0000) as u32,
        b: 0,
    };
    tries.into_iter().map(call).collect()
}

/// A call aimed at what the state holds.
fn aimed(r: &mut Random, s: &State) -> Command {
    let (kind, a, b) = match r.below(20) {
        0..4 => {
            let halves = match dues(s).as_slice() {
                [] => 1 + r.below(40),
                dues => r.pick(dues).saturating_sub(s.half),
            };
            (3, (halves + r.below(3)).saturating_sub(1), 0)
        }
        4 => (3, 1, 0),
        5 | 6 => (2, SCR, (r.byte() & 0xcf | r.pick(&[0, 0x20, 0x30])).into()),
        7 => (2, SSR, r.pick(&[0x00, 0x7f, 0xff, 0x80, 0x87, 0xc7])),
        8 => (2, TDR, r.byte().into()),
        9 => (2, SMR, (s.smr ^ 0x80).into()),
        10..12 => (5, r.below(2), r.below(2)),
        12 => (6, r.below(16), 0),
        13 => (1, r.pick(&[SSR, RDR]), 0),
        14 => (4, r.below(2), 0),
        15 => (2, BRR, r.pick(&[s.brr, r.clone().byte()]).into()),
        16..19 => return aimed_cycles(r, s),
        _ => return sample::call(r),
    };
    Command { kind, a, b }
}

/// A state that passes the field test, and one call or a short list on it.
pub fn given(seed: u64) -> Case {
    let r = &mut Random::new(seed);
    let mut s = state(r);
    let mut calls = Vec::new();
    if r.one_in(4) {
        // Near the limit: up to it, and one past it.
        let distance = match r.below(64) {
            0 if r.bit() => r.below(NEAR),
            // Within the longest wait, but only just.
            0 => 60_000 + r.below(5_600),
            1..24 => r.below(3),
            _ => r.below(450),
        };
        s = moved(&s, LIMIT - distance);
        let wait = match r.below(6) {
            0 => distance,
            1 => distance + 1,
            2 => distance.saturating_sub(1),
            3 => 65_535,
            _ => distance + r.below(4),
        };
        // A long wait that is accepted is dear.
        if wait <= 0xffff && (wait > distance || wait < 1000 || r.one_in(4)) {
            calls.push(Command {
                kind: 3,
                a: wait,
                b: 0,
            });
            calls.push(Command {
                kind: 3,
                a: 1,
                b: 0,
            });
        }
        if r.bit() {
            s.scr |= 2;
            for _ in 0..3 {
                calls.push(Command {
                    kind: 5,
                    a: r.below(2),
                    b: r.below(2),
                });
            }
        }
    }
    if calls.is_empty() && r.one_in(8) {
        calls = near_in_cycles(r, &mut s);
    }
    let more = match r.below(4) {
        0 => r.below(12),
        1 if !calls.is_empty() => 0,
        _ => 1,
    };
    for _ in 0..more {
        calls.push(match r.below(16) {
            0 => refused(r),
            1..5 => sample::call(r),
            _ => aimed(r, &s),
        });
    }
    let short = |c: &Command| !matches!(c.kind, 3 | 8 | 9) || c.a < 40;
    if r.bit() && calls.iter().all(short) {
        calls = halves_apart(calls);
    }
    Case {
        start: Start::Given(s),
        calls,
    }
}

type Break = fn(&mut Random, &mut State);

/// Ways to break one clause, each a field of its own.
pub const BREAKS: [(&str, Break); 43] = [
    ("half count past the limit", |r, s| {
        let past = LIMIT + 1 + r.below(100_000_000);
        *s = moved(s, past);
    }),
    ("half count one past the limit", |_, s| {
        *s = moved(s, LIMIT + 1);
    }),
    ("SPCR bit 2, 3 or 5", |r, s| s.spcr |= r.pick(&[4, 8, 0x20])),
    ("SPCR without bit 6 or 7", |r, s| {
        s.spcr &= !r.pick(&[0x40, 0x80])
    }),
    ("SCR bit 3", |_, s| s.scr |= 8),
    ("SEMR bit", |r, s| {
        s.semr |= r.pick(&[1, 2, 4, 0x10, 0x20, 0x40, 0x80]);
    }),
    ("IRCR bit 7", |_, s| s.ircr |= 0x80),
    ("IRCR low bits", |r, s| s.ircr |= 1 + r.below(15) as u8),
    ("SSR bit 0 or 1", |r, s| s.ssr |= 1 + r.below(3) as u8),
    ("seen bit 0 or 1", |r, s| s.seen |= 1 + r.below(3) as u8),
    ("sender's word", |r, s| {
        if let Some(word) = sender_word(s) {
            *word ^= 1 << r.below(16);
        }
    }),
    ("sender's start bit", |_, s| {
        if let Some(word) = sender_word(s) {
            *word ^= 1;
        }
    }),
    ("sender's data bits", |r, s| {
        let data = any_byte(r, &[5, 7, 8]);
        if let Some(format) = sender_format(s) {
            format.data = data;
        }
    }),
    ("sender's stops", |r, s| {
        let stops = any_byte(r, &[1, 2]);
        if let Some(format) = sender_format(s) {
            format.stops = stops;
        }
    }),
    ("sender's cell length", |r, s| {
        let length = any_length(r);
        if let Some(format) = sender_format(s) {
            format.half_bit = length;
        }
    }),
    ("sender's clocked parity", |_, s| {
        if let Some(format) = sender_format(s) {
            format.parity = format.synchronous;
        }
    }),
    ("receiver's data bits", |r, s| {
        let data = any_byte(r, &[5, 7, 8]);
        if let Some(rx) = &mut s.rx {
            rx.format.data = data;
        }
    }),
    ("receiver's stops", |r, s| {
        let stops = any_byte(r, &[1, 2]);
        if let Some(rx) = &mut s.rx {
            rx.format.stops = stops;
        }
    }),
    ("receiver's cell length", |r, s| {
        let length = any_length(r);
        if let Some(rx) = &mut s.rx {
            rx.format.half_bit = length;
        }
    }),
    ("receiver's clocked parity", |_, s| {
        if let Some(rx) = &mut s.rx {
            rx.format.parity = rx.format.synchronous;
        }
    }),
    ("transmit cell, start-stop", |r, s| {
        if let Some(Tx::Data {
            character, cell, ..
        }) = &mut s.tx
            && !character.format.synchronous
        {
            let stop = model::stop(character.format);
            *cell = stop + r.pick(&[0, 0, 1, 100]);
        }
    }),
    ("transmit cell, clocked", |r, s| {
        if let Some(Tx::Data {
            character, cell, ..
        }) = &mut s.tx
            && character.format.synchronous
        {
            *cell = 8 + r.pick(&[0, 0, 1, 100]);
        }
    }),
    ("receive position below, start-stop", |r, s| {
        if let Some(rx) = &mut s.rx
            && !rx.format.synchronous
        {
            rx.position = r.pick(&[-3, -3, -4, -128]);
        }
    }),
    ("receive position above, start-stop", |r, s| {
        if let Some(rx) = &mut s.rx
            && !rx.format.synchronous
        {
            let last = rx.format.data as i8 + i8::from(rx.format.parity);
            rx.position = last + r.pick(&[1, 1, 2, 100]);
        }
    }),
    ("receive position below, clocked", |r, s| {
        if let Some(rx) = &mut s.rx
            && rx.format.synchronous
        {
            rx.position = r.pick(&[-1, -2, -3, -128]);
        }
    }),
    ("receive position above, clocked", |r, s| {
        if let Some(rx) = &mut s.rx
            && rx.format.synchronous
        {
            rx.position = r.pick(&[8, 8, 9, 127]);
        }
    }),
    ("receive error", |r, s| {
        let error = any_byte(r, &[0, 8]);
        if let Some(rx) = &mut s.rx {
            rx.error = error;
        }
    }),
    ("receive error with framing", |r, s| {
        if let Some(rx) = &mut s.rx {
            rx.error = r.pick(&[0x10, 0x18]);
        }
    }),
    ("bit_start", |r, s| {
        s.bit_start = s.half + r.pick(&[1, 1, 2, 400])
    }),
    ("sender due too early", |r, s| {
        let half = s.half - r.pick(&[0, 0, 1, 5]).min(s.half);
        if let Some(due) = sender_due(s) {
            *due = half;
        }
    }),
    ("sender due too late", |r, s| {
        let half = s.half + 449 + r.pick(&[0, 0, 1, 1000]);
        if let Some(due) = sender_due(s) {
            *due = half;
        }
    }),
    ("receiver due too early", |r, s| {
        let half = s.half - r.pick(&[0, 0, 1, 5]).min(s.half);
        if let Some(due) = s.rx.as_mut().and_then(|rx| rx.next.as_mut()) {
            *due = half;
        }
    }),
    ("receiver due too late", |r, s| {
        let half = s.half + 449 + r.pick(&[0, 0, 1, 1000]);
        if let Some(due) = s.rx.as_mut().and_then(|rx| rx.next.as_mut()) {
            *due = half;
        }
    }),
    ("clocked edge due too early", |r, s| {
        s.sync_next = Some(s.half - r.pick(&[0, 0, 1, 5]).min(s.half));
    }),
    ("clocked edge due too late", |r, s| {
        s.sync_next = Some(s.half + 449 + r.pick(&[0, 0, 1, 1000]));
    }),
    ("sender's due half there or not", |r, s| {
        let due = Some(s.half + 1 + r.below(448));
        if let Some(Tx::Data { next, .. }) = &mut s.tx {
            *next = if next.is_some() { None } else { due };
        }
    }),
    ("receiver's due half there or not", |r, s| {
        let due = Some(s.half + 1 + r.below(448));
        if let Some(rx) = &mut s.rx {
            rx.next = if rx.next.is_some() { None } else { due };
        }
    }),
    ("no ticks left", |_, s| s.remaining = 0),
    ("257 ticks left", |_, s| s.remaining = 257),
    ("more than 257 ticks left", |r, s| {
        s.remaining = r.pick(&[258, 511, 512, 0x7fff, 0xff01, 0xffff]);
    }),
    ("system cycles one past the limit", |_, s| {
        s.system = CYCLES + 1;
    }),
    ("watch cycles one past the limit", |_, s| {
        s.watch = CYCLES + 1
    }),
    ("cycles past the limit", |r, s| {
        let past = CYCLES << r.below(16) | 1 << r.below(48);
        let past = r.pick(&[past, u64::MAX]);
        if r.bit() {
            s.system = past;
        } else {
            s.watch = past;
        }
    }),
];

fn any_byte(r: &mut Random, but: &[u8]) -> u8 {
    let byte = r.pick(&[0, 1, 2, 3, 4, 6, 9, 16, 255, r.clone().byte()]);
    if but.contains(&byte) { 6 } else { byte }
}

fn any_length(r: &mut Random) -> u32 {
    r.pick(&[0, 1, 8, 15, 17, 31, 33, 48, 64, u32::MAX])
}

fn sender_character(s: &mut State) -> Option<&mut model::Character> {
    match s.tx.as_mut()? {
        Tx::Blocked { character } | Tx::Start { character, .. } | Tx::Data { character, .. } => {
            Some(character)
        }
        Tx::Tail { loaded, .. } => loaded.as_mut(),
        Tx::Mark { .. } => None,
    }
}

fn sender_word(s: &mut State) -> Option<&mut u16> {
    sender_character(s).map(|character| &mut character.word)
}

fn sender_format(s: &mut State) -> Option<&mut Format> {
    sender_character(s).map(|character| &mut character.format)
}

fn sender_due(s: &mut State) -> Option<&mut u32> {
    match s.tx.as_mut()? {
        Tx::Blocked { .. } => None,
        Tx::Mark { next } | Tx::Start { next, .. } => Some(next),
        Tx::Data { next, .. } | Tx::Tail { next, .. } => next.as_mut(),
    }
}

/// A state that fails exactly one clause, how it was broken, and calls on it
/// of every kind, right and wrong, and of a kind that is none of the nine.
pub fn failing(seed: u64) -> (usize, Case) {
    let r = &mut Random::new(seed);
    let broken = r.below(BREAKS.len() as u32) as usize;
    let state = loop {
        let mut s = sample::state(r);
        (BREAKS[broken].1)(r, &mut s);
        if failed_clauses(&s).count() == 1 {
            break s;
        }
    };
    let mut calls: Vec<Command> = (1..=9).map(|kind| Command { kind, a: 0, b: 0 }).collect();
    calls.extend((0..3).map(|_| sample::call(r)));
    calls.extend((0..3).map(|_| refused(r)));
    // 8 is tested first, so it comes before 7 too.
    calls.push(Command {
        kind: r.pick(&UNKNOWN),
        a: 0,
        b: 0,
    });
    let case = Case {
        start: Start::Given(state),
        calls,
    };
    (broken, case)
}
