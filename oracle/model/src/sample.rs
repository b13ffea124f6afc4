//! Random calls and random states that pass the field test, by seed.
use crate::field_test::{CYCLES, LIMIT};
use crate::frame::{format, stop, word};
use crate::registers::{ADDRESSES, IRCR, RDR, SCR, SEMR, SMR, SPCR, SSR, TDR};
use crate::script::Command;
use reference::{Character, Rx, State, Tx};

/// Splitmix64: every seed is good, and runs are the same everywhere.
#[derive(Clone, Debug)]
pub struct Random(u64);

impl Random {
    pub fn new(seed: u64) -> Self {
        Self(seed)
    }
    fn next(&mut self) -> u64 {
        self.0 = self.0.wrapping_add(0x9e37_79b9_7f4a_7c15);
        let mut z = self.0;
        z = (z ^ (z >> 30)).wrapping_mul(0xbf58_476d_1ce4_e5b9);
        z = (z ^ (z >> 27)).wrapping_mul(0x94d0_49bb_1331_11eb);
        z ^ (z >> 31)
    }
    /// 0 to `bound` less one.
    pub fn below(&mut self, bound: u32) -> u32 {
        (self.next() % u64::from(bound)) as u32
    }
    pub fn bit(&mut self) -> bool {
        self.below(2) == 1
    }
    /// True once in `times`.
    pub fn one_in(&mut self, times: u32) -> bool {
        self.below(times) == 0
    }
    pub fn byte(&mut self) -> u8 {
        self.below(256) as u8
    }
    pub fn pick<T: Copy>(&mut self, from: &[T]) -> T {
        from[self.below(from.len() as u32) as usize]
    }
}

/// A register value that keeps most ports alive: transmitter and receiver
/// mostly on, the clock mostly internal, otherwise anything.
fn value(r: &mut Random, address: u32) -> u8 {
    match address {
        SCR => match r.below(8) {
            0 => r.byte(),
            1 => r.pick(&[0x00, 0x02, 0x12, 0x22, 0x32]),
            _ => r.pick(&[0x10, 0x20, 0x30, 0x30]),
        },
        SMR => match r.below(4) {
            0 => r.byte(),
            1 => 0x80,
            _ => r.byte() & 0x7f,
        },
        SPCR => r.pick(&[0x00, 0x10, 0x10, 0x11, 0x13]),
        // Bit 7 would only be refused.
        IRCR => r.byte() & 0x7f,
        _ => r.byte(),
    }
}

fn halves(r: &mut Random) -> u32 {
    match r.below(8) {
        0 => r.below(3),
        1 => r.below(500),
        2 => 32,
        3 => 16,
        _ => 1 + r.below(40),
    }
}

/// Power bits: mostly on, or the port would stand still for most of a list.
fn power(r: &mut Random) -> u32 {
    match r.below(4) {
        0 => r.below(16),
        _ => r.pick(&[3, 7]),
    }
}

/// A call that is mostly accepted and mostly moves something.
pub fn call(r: &mut Random) -> Command {
    let (kind, a, b) = match r.below(32) {
        0..4 => (1, r.pick(&ADDRESSES), 0),
        4..7 => (1, SSR, 0),
        7..9 => (1, RDR, 0),
        9..15 => {
            let address = r.pick(&ADDRESSES);
            (2, address, value(r, address).into())
        }
        15 => (2, TDR, r.byte().into()),
        16 => (2, SSR, r.pick(&[0x00, 0x80, 0xbf, 0x87])),
        17 => (7, 0, 0),
        18 => (6, power(r), 0),
        19..23 => (4, r.bit().into(), 0),
        23..25 => (5, r.bit().into(), r.bit().into()),
        _ => (3, halves(r), 0),
    };
    Command { kind, a, b }
}

/// Cycles of one of the two clocks, about the dividers and the greatest count.
pub fn cycles(r: &mut Random) -> Command {
    let n = match r.below(12) {
        0 => 0,
        1 | 2 => 1,
        3 => r.pick(&[15, 16, 17, 63, 64, 65]),
        4 => r.pick(&[255, 256, 257]),
        5 => r.below(1000),
        6 if r.one_in(40) => r.below(65_536),
        _ => 1 + r.below(40),
    };
    Command {
        kind: if r.one_in(3) { 9 } else { 8 },
        a: n,
        b: 0,
    }
}

/// What brings a fresh port to work: power, a format, both sides on.
pub fn opening(r: &mut Random) -> Vec<Command> {
    let mut calls = vec![Command {
        kind: 6,
        a: 3,
        b: 0,
    }];
    for address in [SPCR, SMR, SEMR, SCR] {
        calls.push(Command {
            kind: 2,
            a: address,
            b: value(r, address).into(),
        });
    }
    calls
}

fn due(r: &mut Random, half: u32) -> u32 {
    half + match r.below(4) {
        0 => 1,
        1 => 1 + r.below(3),
        2 => 1 + r.below(32),
        _ => 1 + r.below(448),
    }
}

fn due_perhaps(r: &mut Random, half: u32) -> Option<u32> {
    r.bit().then(|| due(r, half))
}

fn character(r: &mut Random) -> Character {
    let format = format(r.byte(), r.byte());
    Character {
        format,
        word: word(format, r.byte()),
    }
}

fn sender(r: &mut Random, half: u32) -> Option<Tx> {
    let character = character(r);
    let clocked = character.format.synchronous;
    Some(match r.below(7) {
        0 => Tx::Blocked { character },
        1 => Tx::Mark { next: due(r, half) },
        2 => Tx::Start {
            character,
            next: due(r, half),
        },
        3 | 4 => Tx::Data {
            character,
            cell: r.below(if clocked {
                8
            } else {
                stop(character.format).into()
            }) as u8,
            next: (!clocked).then(|| due(r, half)),
        },
        5 => Tx::Tail {
            loaded: r.bit().then_some(character),
            next: due_perhaps(r, half),
        },
        _ => return None,
    })
}

fn receiver(r: &mut Random, half: u32) -> Option<Rx> {
    if r.one_in(3) {
        return None;
    }
    let format = format(r.byte(), r.byte());
    let (first, places) = if format.synchronous {
        (0, 8)
    } else {
        (-2, 3 + u32::from(format.data) + u32::from(format.parity))
    };
    Some(Rx {
        format,
        value: r.byte(),
        position: first + r.below(places) as i8,
        parity: r.bit(),
        error: r.pick(&[0, 0, 8]),
        next: (!format.synchronous).then(|| due(r, half)),
    })
}

/// Ticks left, about a count's beginning and end.
fn remaining(r: &mut Random, brr: u8) -> u16 {
    match r.below(8) {
        0 => 256,
        1 | 2 => 1,
        3 => 2,
        4 => 1 + u16::from(brr),
        _ => 1 + r.below(256) as u16,
    }
}

/// A total of cycles: small, any, about to make a tick of the dividers, and
/// near its greatest.
fn total(r: &mut Random) -> u64 {
    let any = u64::from(r.below(u32::MAX)) << 16;
    match r.below(8) {
        0 => CYCLES - u64::from(r.below(70)),
        1 => CYCLES - u64::from(r.below(70_000)),
        2 | 3 => any | (63 - u64::from(r.below(3))),
        4 => any + u64::from(r.below(64)),
        _ => r.below(200).into(),
    }
}

/// Any state that passes the field test, with an eye on the limits and on
/// tallies about to wrap.
pub fn state(r: &mut Random) -> State {
    let half = match r.below(8) {
        0 => LIMIT - r.below(500),
        1 => LIMIT,
        2 => r.below(LIMIT),
        _ => r.below(1000),
    };
    let tally = |r: &mut Random| u64::MAX.wrapping_add(r.below(3).into());
    let brr = r.byte();
    State {
        spcr: 0xc0 | (r.byte() & 0x13),
        smr: r.byte(),
        brr,
        scr: r.byte() & 0xf7,
        tdr: r.byte(),
        ssr: r.byte() & if r.bit() { 0xfc } else { 0xc4 },
        rdr: r.byte(),
        semr: r.byte() & 8,
        ircr: r.byte() & 0x70,
        seen: r.byte() & 0xfc,
        module: !r.one_in(8),
        main: !r.one_in(4),
        sub: r.bit(),
        reset_mode: r.one_in(8),
        half,
        high: r.bit(),
        edge: r.bit(),
        holding: r.bit().then(|| r.byte()),
        tx: sender(r, half),
        rx: receiver(r, half),
        uart: r.bit(),
        bit_start: half - r.below(half.min(100) + 1),
        input: r.bit(),
        input_clock: r.bit(),
        sck: r.bit(),
        sync_next: due_perhaps(r, half),
        transmitted: tally(r),
        received: tally(r),
        remaining: remaining(r, brr),
        system: total(r),
        watch: total(r),
    }
}
