//! The refusals of a direct call and the numbers of causes, from the tables of
//! documents 01 and 02. None of this is in the reference.
use crate::field_test::{CYCLES, LIMIT, field_test};
use crate::registers::{ADDRESSES, IRCR};
use reference::{Completed, State};

/// The number of a completed word's cause: by RDRF before it, and its own
/// errors.
pub fn cause(word: Completed) -> u8 {
    let errors = match word.error & 0x18 {
        0 => 0,
        8 => 1,
        0x10 => 2,
        _ => 3,
    };
    errors + if word.ssr & 0x40 == 0 { 1 } else { 5 }
}

/// Whether the port runs at all, on whichever clock.
pub fn running(s: &State) -> bool {
    s.module && !s.reset_mode && (s.main || (s.sub && s.smr & 3 == 1))
}

pub fn external(s: &State) -> bool {
    s.scr & 2 != 0
}

/// Whether halves pass by themselves: the port runs on its internal clock.
pub fn counting(s: &State) -> bool {
    running(s) && !external(s)
}

/// The greatest value of each operand of a kind.
pub fn ranges(kind: u32) -> Option<&'static [u32]> {
    Some(match kind {
        1 => &[0xffff],
        2 => &[0xffff, 255],
        3 => &[0xffff],
        4 => &[1],
        5 => &[1, 1],
        6 => &[15],
        7 => &[],
        8 | 9 => &[0xffff],
        _ => return None,
    })
}

/// The clock whose cycles a kind passes.
#[derive(Clone, Copy, Debug, PartialEq, Eq)]
pub enum Clock {
    System,
    Watch,
}

pub fn cycles(kind: u32) -> Option<Clock> {
    match kind {
        8 => Some(Clock::System),
        9 => Some(Clock::Watch),
        _ => None,
    }
}

/// The cycles of a clock so far.
pub fn total(s: &State, clock: Clock) -> u64 {
    match clock {
        Clock::System => s.system,
        Clock::Watch => s.watch,
    }
}

/// The clock that SMR chooses, and of how many of its cycles one makes a tick.
pub fn choice(s: &State) -> (Clock, u64) {
    match s.smr & 3 {
        0 => (Clock::System, 1),
        1 => (Clock::Watch, 1),
        2 => (Clock::System, 16),
        _ => (Clock::System, 64),
    }
}

/// How many halves so many cycles of a clock count. The dividers run freely,
/// so the ticks are those of the totals.
pub fn halves(s: &State, clock: Clock, cycles: u64) -> u64 {
    let (chosen, divider) = choice(s);
    if !counting(s) || clock != chosen {
        return 0;
    }
    let before = total(s, clock);
    let ticks = (before + cycles) / divider - before / divider;
    match ticks.checked_sub(s.remaining.into()) {
        Some(rest) => 1 + rest / (u64::from(s.brr) + 1),
        None => 0,
    }
}

/// How many edges the call would count.
fn edges(s: &State, kind: u32, a: u32, b: u32) -> u64 {
    match kind {
        3 if counting(s) => a.into(),
        5 => {
            let (clock, line) = (a != 0, b != 0);
            // Pins as they stand are no change; the edge is one of the phase.
            let change = clock != s.input_clock || line != s.input;
            u64::from(change && running(s) && external(s) && clock != s.high)
        }
        _ => cycles(kind).map_or(0, |clock| halves(s, clock, a.into())),
    }
}

/// 1, 3, 10 and 4, which the player tests when the whole command is read.
pub(crate) fn late_refusal(s: &State, kind: u32, a: u32, b: u32) -> Option<u8> {
    if matches!(kind, 1 | 2) && !ADDRESSES.contains(&a) {
        return Some(1);
    }
    if kind == 2 && a == IRCR && b & 0x80 != 0 {
        return Some(3);
    }
    if cycles(kind).is_some_and(|clock| total(s, clock) + u64::from(a) > CYCLES) {
        return Some(10);
    }
    (edges(s, kind, a, b) > u64::from(LIMIT - s.half)).then_some(4)
}

/// The number a direct call is refused with: 8, then 2, 1, 3, 10, 4. There is
/// no direct call of another kind; 7 stands in for it, after 8.
pub fn refusal(s: &State, kind: u32, a: u32, b: u32) -> Option<u8> {
    if field_test(s).is_err() {
        return Some(8);
    }
    let Some(ranges) = ranges(kind) else {
        return Some(7);
    };
    if ranges.iter().zip([a, b]).any(|(most, given)| given > *most) {
        return Some(2);
    }
    late_refusal(s, kind, a, b)
}
