//! Changes to an input that know its commands. Changed bytes alone seldom give
//! another accepted script; these do, and libFuzzer's own changes of bytes
//! stand beside them for all that is not well formed.
use super::input::Input;
use crate::{
    layout::{LENGTH, MOST},
    lists::{PROFILES, halves_apart, of_profile},
    scripts::make::Script,
};
use model::{
    Command, commands,
    registers::ADDRESSES,
    sample::{self, Random},
};

fn place(length: usize, r: &mut Random) -> usize {
    r.below(length as u32) as usize
}

/// A command with another operand.
fn other(mut c: Command, r: &mut Random) -> Command {
    match c.kind {
        1 => c.a = r.pick(&ADDRESSES),
        2 if r.one_in(8) => c.a = r.pick(&ADDRESSES),
        2 if r.bit() => c.b ^= 1 << r.below(8),
        2 => c.b = r.byte().into(),
        3 => c.a = (c.a + r.pick(&[1, 2, 16, 32, 320, 0])).saturating_sub(r.pick(&[0, 1, 16, 32])),
        4 => c.a ^= 1,
        5 if r.bit() => c.a ^= 1,
        5 => c.b ^= 1,
        6 => c.a ^= 1 << r.below(4),
        8 | 9 if r.one_in(4) => c.kind = 17 - c.kind,
        8 | 9 => {
            let more = r.pick(&[1, 1, 2, 15, 16, 63, 64, 255, 256]);
            c.a = if r.bit() {
                (c.a + more).min(0xffff)
            } else {
                c.a.saturating_sub(more)
            };
        }
        _ => return sample::call(r),
    }
    c
}

fn changed(script: &[u8], r: &mut Random) -> Vec<u8> {
    let (mut all, read) = commands(script);
    let at = place(all.len() + 1, r);
    let here = all.get(at).copied();
    match (r.below(12), here) {
        (0..2, Some(_)) => {
            all.remove(at);
        }
        (2..4, Some(c)) => all[at] = other(c, r),
        (4, Some(_)) => {
            let end = (at + 1 + place(6, r)).min(all.len());
            let run = all[at..end].to_vec();
            let to = place(all.len() + 1, r);
            all.splice(to..to, run);
        }
        // A wait in two, often with one half alone: what happens inside it
        // shows, and the state there can be worked on. So with cycles.
        (
            5..7,
            Some(Command {
                kind: kind @ (3 | 8 | 9),
                a,
                ..
            }),
        ) if a > 1 => {
            let first = match r.below(3) {
                0 => 1,
                1 => a - 1,
                _ => 1 + r.below(a - 1),
            };
            let part = |a| Command { kind, a, b: 0 };
            all.splice(at..=at, [part(first), part(a - first)]);
        }
        (7, _) => {
            let seed = u64::from(r.below(u32::MAX));
            let mut run = of_profile(place(PROFILES.len(), r), seed);
            if r.one_in(8) {
                run = halves_apart(run);
            }
            let from = place(run.len().max(1), r);
            run.drain(..from.min(run.len()));
            run.truncate(1 + place(12, r));
            all.splice(at..at, run);
        }
        (8, _) => all.insert(at, sample::cycles(r)),
        _ => all.insert(at, sample::call(r)),
    }
    let mut bytes = Script::of(&all).bytes;
    bytes.extend_from_slice(&script[read..]);
    bytes
}

/// One number of the array more, or another one there; mostly such as may
/// stand at its place.
fn numbered(numbers: &mut Vec<(u8, u64)>, r: &mut Random) {
    let known = place(numbers.len().max(1), r);
    if let Some((_, number)) = numbers.get_mut(known).filter(|_| r.bit()) {
        *number = match r.below(3) {
            0 => number.wrapping_add(1),
            1 => number.wrapping_sub(1),
            _ => *number ^ 1 << r.below(8),
        };
        return;
    }
    let at = place(LENGTH + usize::from(r.one_in(16)), r);
    let most = MOST.get(at).copied().unwrap_or(0);
    let number = match r.below(4) {
        0 => most,
        1 => u64::from(r.byte()),
        _ => u64::from(r.byte()).min(most),
    };
    if numbers.len() < 255 {
        numbers.push((at as u8, number));
    }
}

/// The input with one part of it changed.
pub fn mutated(mut input: Input, r: &mut Random) -> Input {
    match r.below(32) {
        0 => input.calls = !input.calls,
        1 => input.turned = !input.turned,
        2 => input.long = !input.long,
        // What was played becomes what was played before.
        3 if input.script.len() < 256 => input.earlier = Some(input.script.clone()),
        4 => input.earlier = None,
        5 => input.distance = r.bit().then(|| r.below(1000) as u16),
        6 => {
            input.numbers.pop();
        }
        7 => {
            let commands = commands(&input.script).0.len();
            let log = crate::scripts::make::log_length(commands, r) as u16;
            input.log = r.bit().then_some(log);
        }
        8..10 => numbered(&mut input.numbers, r),
        10..12 => {
            if let Some(earlier) = &mut input.earlier {
                *earlier = changed(earlier, r);
                earlier.truncate(255);
            }
        }
        _ => input.script = changed(&input.script, r),
    }
    input
}
