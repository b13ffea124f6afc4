//! Proof that the runner can fail: each of these changes what the reference
//! shows, mostly in one situation only, as a mistake in a port would.
use crate::port::Shown;
use model::{
    Answer, CYCLES, ClockDrive, Command, LIMIT, Rx, State, Tx, choice, counting, cycles, halves,
    registers::{BRR, RDR, SCR, SMR, SSR, TDR},
    total,
};

pub struct Alteration {
    pub name: &'static str,
    /// The state before the call, the call, and what the reference shows.
    pub apply: fn(&State, Command, &mut Shown),
}

fn accepted(shown: &Shown) -> bool {
    matches!(shown.answer, Answer::Done(_))
}

/// The receiver's word that this one half completed.
fn completed(before: &State, call: Command, shown: &Shown) -> Option<Rx> {
    let s = &shown.state;
    let one = s.half == before.half.wrapping_add(1) && matches!(call.kind, 3 | 5 | 8 | 9);
    before.rx.filter(|rx| {
        let last = rx.format.data as i8 + i8::from(rx.format.parity);
        one && rx.next == Some(s.half) && rx.position == last
    })
}

fn gained(before: &State, shown: &Shown, flag: u8) -> bool {
    shown.state.ssr & !before.ssr & flag != 0
}

/// The halves that an accepted call of cycles counted.
fn by_cycles(before: &State, call: Command, shown: &Shown) -> Option<u32> {
    let is = cycles(call.kind).is_some() && accepted(shown) && call.a > 0;
    is.then(|| shown.state.half.wrapping_sub(before.half))
}

/// Whether the call is a write of BRR that the module takes.
fn brr_taken(before: &State, call: Command, shown: &Shown) -> bool {
    let write = (call.kind, call.a) == (2, BRR) && accepted(shown);
    write && before.module && !before.reset_mode
}

fn full(s: &State) -> u16 {
    u16::from(s.brr) + 1
}

/// The due half of a sender in data.
fn data_due(s: &mut State) -> Option<&mut u32> {
    match &mut s.tx {
        Some(Tx::Data { next, .. }) => next.as_mut(),
        _ => None,
    }
}

macro_rules! alterations {
    ($($name:literal: |$before:pat_param, $call:pat_param, $shown:ident| $body:block)*) => {
        /// All of them; `--alter` counts from 1.
        pub const ALTERATIONS: &[Alteration] = &[$(Alteration {
            name: $name,
            apply: {
                fn apply($before: &State, $call: Command, $shown: &mut Shown) $body
                apply
            },
        }),*];
    };
}

alterations! {
    "flag: TDRE stays clear when a held byte is taken": |before, _, shown| {
        if before.holding.is_some() && shown.state.holding.is_none() && gained(before, shown, 0x80) {
            shown.state.ssr &= !0x80;
        }
    }
    "flag: TEND missing in a tail without a word": |before, _, shown| {
        if gained(before, shown, 4) && matches!(shown.state.tx, Some(Tx::Tail { loaded: None, .. })) {
            shown.state.ssr &= !4;
        }
    }
    "flag: overrun lost": |before, _, shown| {
        if gained(before, shown, 0x20) {
            shown.state.ssr &= !0x20;
        }
    }
    "flag: RDRF kept by an RDR read": |before, call, shown| {
        if (call.kind, call.a) == (1, RDR) && accepted(shown) {
            shown.state.ssr |= before.ssr & 0x40;
        }
    }
    "flag: RDRF set beside a framing fault": |before, _, shown| {
        if gained(before, shown, 0x10) {
            shown.state.ssr |= 0x40;
        }
    }
    "flag: unseen bits cleared by an SSR write": |before, call, shown| {
        if (call.kind, call.a) == (2, SSR) && shown.state.scr & 0x20 == 0 && before.module {
            shown.state.ssr &= call.b as u8 | 0x87;
        }
    }
    "seen: TEND's bit kept by an SSR write": |before, call, shown| {
        if (call.kind, call.a) == (2, SSR) && accepted(shown) {
            shown.state.seen |= before.seen & 4;
        }
    }
    "RDR: written in an overrun": |before, call, shown| {
        if let Some(rx) = completed(before, call, shown) {
            shown.state.rdr = rx.value;
        }
    }
    "overrun: judged by the new word's error": |before, call, shown| {
        let error = completed(before, call, shown).is_some_and(|rx| rx.error != 0);
        if error && before.ssr & 0x40 != 0 {
            shown.state.ssr &= !0x20 | before.ssr;
        }
    }
    "due half: sender's, one later in data": |before, _, shown| {
        if before.tx != shown.state.tx && let Some(due) = data_due(&mut shown.state) {
            *due += 1;
        }
    }
    "due half: mark one cell longer at the edge": |before, call, shown| {
        if let Some(Tx::Mark { next }) = &mut shown.state.tx
            && before.tx.is_none() && before.edge && call.kind == 2
        {
            *next += 32;
        }
    }
    "due half: receiver's, one early after the fall": |before, _, shown| {
        if let Some(rx) = &mut shown.state.rx
            && before.rx.is_some_and(|rx| rx.position == -2) && rx.position == -1
        {
            rx.next = rx.next.map(|due| due - 1);
        }
    }
    "due half: clocked edge one late": |before, _, shown| {
        if before.sync_next.is_none() {
            shown.state.sync_next = shown.state.sync_next.map(|due| due + 1);
        }
    }
    "tally: overrun counts as received": |before, _, shown| {
        if gained(before, shown, 0x20) {
            shown.state.received = shown.state.received.wrapping_add(1);
        }
    }
    "tally: words finished stop at the greatest": |before, _, shown| {
        if before.transmitted == u64::MAX && shown.state.transmitted == 0 {
            shown.state.transmitted = u64::MAX;
        }
    }
    "tally: words received stop at the greatest": |before, _, shown| {
        if before.received == u64::MAX && shown.state.received == 0 {
            shown.state.received = u64::MAX;
        }
    }
    "tally: lost by a module reset": |_, call, shown| {
        if call.kind == 6 && !shown.state.module && accepted(shown) {
            shown.state.received = 0;
        }
    }
    "position: clocked word begins at 0": |before, _, shown| {
        if let Some(rx) = &mut shown.state.rx
            && before.rx.is_none() && rx.format.synchronous && rx.position == 1
        {
            rx.position = 0;
        }
    }
    "position: parity cell skipped": |_, _, shown| {
        if let Some(rx) = &mut shown.state.rx
            && rx.format.parity && rx.position == rx.format.data as i8
        {
            rx.position += 1;
        }
    }
    "edge bit: kept by kind 7": |before, call, shown| {
        if call.kind == 7 && accepted(shown) {
            shown.state.edge = before.edge;
        }
    }
    "edge bit: kept by a reset": |before, call, shown| {
        if call.kind == 6 {
            shown.state.edge = before.edge;
        }
    }
    "edge bit: cleared by kind 3 of 0": |_, call, shown| {
        if (call.kind, call.a) == (3, 0) && accepted(shown) {
            shown.state.edge = false;
        }
    }
    "phase: not toggled by an external edge": |before, call, shown| {
        if call.kind == 5 {
            shown.state.high = before.high;
        }
    }
    "phase: set to the clock pin by a reset": |before, call, shown| {
        if call.kind == 6 && before.module && !shown.state.module {
            shown.state.high = shown.state.input_clock;
        }
    }
    "holding: an unsent byte is not replaced": |before, call, shown| {
        if (call.kind, call.a) == (2, TDR) && before.holding.is_some() && shown.state.holding.is_some() {
            shown.state.holding = before.holding;
        }
    }
    "holding: kept by TE off": |before, call, shown| {
        if (call.kind, call.a) == (2, SCR) && shown.state.scr & 0x20 == 0 {
            shown.state.holding = before.holding;
        }
    }
    "bit_start: kept by a reset": |before, call, shown| {
        if call.kind == 6 {
            shown.state.bit_start = before.bit_start;
        }
    }
    "sck: left low when clocking ends": |before, call, shown| {
        if call.kind == 3 && before.sync_next.is_some() && shown.state.sync_next.is_none() {
            shown.state.sck = before.sck;
        }
    }
    "SPCR: lost by reset mode": |before, call, shown| {
        if call.kind == 6 && !before.reset_mode && shown.state.reset_mode {
            shown.state.spcr = 0xc0;
        }
    }
    "clock pin: not stored with the module off": |before, call, shown| {
        if call.kind == 5 && !before.module {
            shown.state.input_clock = before.input_clock;
        }
    }
    "sender: blocked word begins": |before, _, shown| {
        if let Some(Tx::Blocked { character }) = shown.state.tx
            && !matches!(before.tx, Some(Tx::Blocked { .. }))
        {
            shown.state.tx = Some(Tx::Data { character, cell: 0, next: None });
        }
    }
    "word: odd parity taken as even": |before, _, shown| {
        if let Some(Tx::Data { character, .. } | Tx::Start { character, .. }) = &mut shown.state.tx
            && before.tx.is_none() && character.format.parity && character.format.odd
        {
            character.word ^= 1 << (character.format.data + 1);
        }
    }
    "answer: bit 2 of a read of SSR": |_, call, shown| {
        if (call.kind, call.a) == (1, SSR) && let Answer::Done(value) = &mut shown.answer {
            *value &= !4;
        }
    }
    "refusal: 4 one half too early": |before, call, shown| {
        if call.kind == 3 && before.half != LIMIT && shown.state.half == LIMIT {
            shown.answer = Answer::Refused(4);
        }
    }
    "refusal: 1 before 2": |_, call, shown| {
        if call.kind == 2 && call.a <= 0xff00 && shown.answer == Answer::Refused(2) {
            shown.answer = Answer::Refused(1);
        }
    }
    "refusal: 7 before 8": |_, call, shown| {
        if !(1..=9).contains(&call.kind) {
            shown.answer = Answer::Refused(7);
        }
    }
    "refusal: 3 only with the module on": |before, _, shown| {
        if shown.answer == Answer::Refused(3) && !before.module {
            shown.answer = Answer::Done(0);
        }
    }
    "refusal: a receive error of 0x10 passes the field test": |before, _, shown| {
        if before.rx.is_some_and(|rx| rx.error == 0x10) {
            shown.answer = Answer::Done(0);
        }
    }
    "refusal: a due half 449 above passes the field test": |before, _, shown| {
        if before.sync_next == Some(before.half.wrapping_add(449)) {
            shown.answer = Answer::Done(0);
        }
    }
    "refusal: 8 changes the state": |_, call, shown| {
        if shown.answer == Answer::Refused(8) && call.kind == 7 {
            shown.state.edge = false;
        }
    }
    "transmit level: not turned by SPCR bit 1": |_, _, shown| {
        if shown.state.spcr & 0x12 == 0x12 {
            shown.pins.level ^= 1;
        }
    }
    "clock drive: external taken as not the port's": |_, _, shown| {
        if shown.pins.clock == ClockDrive::Floating {
            shown.pins.clock = ClockDrive::Free;
        }
    }
    "clock drive: start-stop clock output turned": |_, _, shown| {
        if shown.state.smr & 0x80 == 0 && shown.pins.clock == ClockDrive::Low {
            shown.pins.clock = ClockDrive::High;
        }
    }
    "interrupt: asked for with the module off": |_, _, shown| {
        if !shown.state.module && shown.state.scr & 4 != 0 && shown.state.ssr & 4 != 0 {
            shown.interrupt = true;
        }
    }
    "interrupt: parity fault does not ask": |_, _, shown| {
        let s = &shown.state;
        if s.ssr & 0x78 == 8 && s.scr & 0xc4 == 0x40 {
            shown.interrupt = false;
        }
    }
    "count: kept by a reset": |before, call, shown| {
        if call.kind == 6 {
            shown.state.remaining = before.remaining;
        }
    }
    "count: BRR+1 after a reset of the old BRR": |before, call, shown| {
        if call.kind == 6 && before.module && !shown.state.module {
            shown.state.remaining = full(before);
        }
    }
    "count: kept by BRR with TE and RE off": |before, call, shown| {
        if brr_taken(before, call, shown) {
            shown.state.remaining = before.remaining;
        }
    }
    "count: kept by BRR with the value it has": |before, call, shown| {
        if brr_taken(before, call, shown) && before.brr == shown.state.brr {
            shown.state.remaining = before.remaining;
        }
    }
    "count: kept by BRR while stopped": |before, call, shown| {
        if brr_taken(before, call, shown) && !counting(before) {
            shown.state.remaining = before.remaining;
        }
    }
    "count: restarted by BRR with TE on": |before, call, shown| {
        if brr_taken(before, call, shown) && before.scr & 0x30 == 0x20 {
            shown.state.remaining = full(&shown.state);
        }
    }
    "count: restarted by BRR with RE on": |before, call, shown| {
        if brr_taken(before, call, shown) && before.scr & 0x30 == 0x10 {
            shown.state.remaining = full(&shown.state);
        }
    }
    "count: restarted by BRR with the module off": |before, call, shown| {
        if (call.kind, call.a) == (2, BRR) && accepted(shown) && !before.module {
            shown.state.remaining = call.b as u16 + 1;
        }
    }
    "count: restarted by another choice": |before, call, shown| {
        if (call.kind, call.a) == (2, SMR) && (before.smr ^ shown.state.smr) & 3 != 0 {
            shown.state.remaining = full(&shown.state);
        }
    }
    "count: restarted by a stop": |before, call, shown| {
        if call.kind == 6 && counting(before) && !counting(&shown.state) {
            shown.state.remaining = full(&shown.state);
        }
    }
    "count: restarted by an external edge": |before, call, shown| {
        if call.kind == 5 && shown.state.half != before.half {
            shown.state.remaining = full(&shown.state);
        }
    }
    "count: kept by a half of kind 3": |before, call, shown| {
        if call.kind == 3 {
            shown.state.remaining = before.remaining;
        }
    }
    "count: full after kind 3 that counts nothing": |before, call, shown| {
        if call.kind == 3 && call.a > 0 && shown.state.half == before.half {
            shown.state.remaining = full(before);
        }
    }
    "count: one tick short after a half": |before, call, shown| {
        let one = by_cycles(before, call, shown) == Some(1);
        if one && shown.state.edge && shown.state.remaining > 1 {
            shown.state.remaining -= 1;
        }
    }
    "total: a divider held while the port stands": |before, call, shown| {
        if by_cycles(before, call, shown).is_some() && !counting(before) && choice(before).1 > 1 {
            let (total, divider) = (shown.state.system, choice(before).1);
            shown.state.system = total / divider * divider;
        }
    }
    "count: ticks of system/64 one cycle late": |before, call, shown| {
        let ticks = by_cycles(before, call, shown).is_some() && counting(before);
        let now = call.kind == 8 && before.smr & 3 == 3 && shown.state.system.is_multiple_of(64);
        if ticks && now && !shown.state.edge {
            shown.state.remaining += 1;
        }
    }
    "cycles: of the other clock tick too": |before, call, shown| {
        let other = cycles(call.kind).is_some_and(|clock| clock != choice(before).0);
        if other && accepted(shown) && call.a > 0 && shown.state.remaining > 1 && counting(before) {
            shown.state.remaining -= 1;
        }
    }
    "cycles: tick on the external clock": |before, call, shown| {
        let counted = by_cycles(before, call, shown).is_some();
        if counted && before.scr & 2 != 0 && shown.state.remaining > 1 {
            shown.state.remaining -= 1;
        }
    }
    "cycles: one half too few of several": |before, call, shown| {
        if by_cycles(before, call, shown).is_some_and(|counted| counted > 1) {
            shown.state.half -= 1;
        }
    }
    "total: lost by a reset": |_, call, shown| {
        if call.kind == 6 && !shown.state.module && accepted(shown) {
            shown.state.system = 0;
        }
    }
    "total: stands with the module off": |before, _, shown| {
        if !before.module {
            shown.state.watch = before.watch;
        }
    }
    "total: stands while the clock is off": |before, call, shown| {
        if call.kind == 8 && !before.main {
            shown.state.system = before.system;
        }
    }
    "total: watch cycles counted as system cycles": |before, call, shown| {
        if call.kind == 9 && accepted(shown) {
            shown.state.watch = before.watch;
            shown.state.system = before.system + u64::from(call.a);
        }
    }
    "total: halves in place of cycles": |before, call, shown| {
        if call.kind == 3 && counting(before) && accepted(shown) {
            shown.state.system = before.system + u64::from(call.a);
        }
    }
    "edge bit: kept by cycles that count nothing": |before, call, shown| {
        if by_cycles(before, call, shown) == Some(0) {
            shown.state.edge = before.edge;
        }
    }
    "edge bit: kept by cycles with the module off": |before, call, shown| {
        if by_cycles(before, call, shown).is_some() && !before.module {
            shown.state.edge = before.edge;
        }
    }
    "edge bit: kept by cycles of the other clock": |before, call, shown| {
        if cycles(call.kind).is_some_and(|clock| clock != choice(before).0) && accepted(shown) {
            shown.state.edge = before.edge;
        }
    }
    "edge bit: set by any half of several cycles": |before, call, shown| {
        if by_cycles(before, call, shown).is_some_and(|counted| counted > 0) {
            shown.state.edge = true;
        }
    }
    "edge bit: cleared by 0 cycles": |_, call, shown| {
        if cycles(call.kind).is_some() && call.a == 0 && accepted(shown) {
            shown.state.edge = false;
        }
    }
    "refusal: 10 one cycle too early": |before, call, shown| {
        let clock = cycles(call.kind).filter(|_| accepted(shown) && call.a > 0);
        if clock.is_some_and(|clock| total(before, clock) + u64::from(call.a) == CYCLES) {
            shown.answer = Answer::Refused(10);
        }
    }
    "refusal: 10 for 0 cycles at the greatest total": |before, call, shown| {
        let clock = cycles(call.kind).filter(|_| accepted(shown) && call.a == 0);
        if clock.is_some_and(|clock| total(before, clock) == CYCLES) {
            shown.answer = Answer::Refused(10);
        }
    }
    "refusal: 4 before 10": |before, call, shown| {
        if let (Answer::Refused(10), Some(clock)) = (shown.answer, cycles(call.kind))
            && halves(before, clock, call.a.into()) > u64::from(LIMIT - before.half)
        {
            shown.answer = Answer::Refused(4);
        }
    }
    "refusal: 10 before 2": |before, call, shown| {
        let clock = cycles(call.kind).filter(|_| shown.answer == Answer::Refused(2));
        if clock.is_some_and(|clock| total(before, clock) + u64::from(call.a) > CYCLES) {
            shown.answer = Answer::Refused(10);
        }
    }
    "refusal: 10 only of the chosen clock": |before, call, shown| {
        if shown.answer == Answer::Refused(10)
            && cycles(call.kind).is_some_and(|clock| clock != choice(before).0)
        {
            shown.answer = Answer::Done(0);
        }
    }
    "refusal: 10 only with the module on": |before, _, shown| {
        if shown.answer == Answer::Refused(10) && !before.module {
            shown.answer = Answer::Done(0);
        }
    }
    "refusal: 4 for cycles one half too early": |before, call, shown| {
        let counted = by_cycles(before, call, shown);
        if counted.is_some_and(|counted| counted > 0) && shown.state.half == LIMIT {
            shown.answer = Answer::Refused(4);
        }
    }
    "refusal: 4 for cycles at the limit that count nothing": |before, call, shown| {
        if by_cycles(before, call, shown) == Some(0) && before.half == LIMIT {
            shown.answer = Answer::Refused(4);
        }
    }
    "refusal: 257 ticks left pass the field test": |before, _, shown| {
        if before.remaining == 257 {
            shown.answer = Answer::Done(0);
        }
    }
    "refusal: no ticks left pass the field test": |before, _, shown| {
        if before.remaining == 0 {
            shown.answer = Answer::Done(0);
        }
    }
    "refusal: a total one past the limit passes the field test": |before, _, shown| {
        if before.watch == CYCLES + 1 {
            shown.answer = Answer::Done(0);
        }
    }
    "cause: overrun's as the others": |_, _, shown| {
        if shown.cause > 4 {
            shown.cause -= 4;
        }
    }
    "cause: parity and framing swapped": |_, _, shown| {
        shown.cause = match shown.cause {
            cause @ (2 | 6) => cause + 1,
            cause @ (3 | 7) => cause - 1,
            cause => cause,
        };
    }
    "cause: overrun by RDRF after the word": |_, _, shown| {
        if shown.cause == 1 {
            shown.cause = 5;
        }
    }
    "cause: by SSR's error flags": |_, _, shown| {
        let errors = u64::from(shown.state.ssr >> 3 & 1) + u64::from(shown.state.ssr >> 3 & 2);
        match shown.cause {
            0 => {}
            1..=4 => shown.cause = 1 + errors,
            _ => shown.cause = 5 + errors,
        }
    }
    "cause: none of a clocked word": |before, _, shown| {
        if before.rx.is_some_and(|rx| rx.format.synchronous) {
            shown.cause = 0;
        }
    }
    "cause: none by the clock pin": |_, call, shown| {
        if call.kind == 5 {
            shown.cause = 0;
        }
    }
    "cause: none in cycles": |_, call, shown| {
        if cycles(call.kind).is_some() {
            shown.cause = 0;
        }
    }
    "cause: none where a flag stands already": |before, _, shown| {
        if before.ssr == shown.state.ssr {
            shown.cause = 0;
        }
    }
}
