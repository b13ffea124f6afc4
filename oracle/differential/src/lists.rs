//! Lists of calls from a fresh port, in profiles, by seed.
use model::{
    Command, Format, format,
    registers::{ADDRESSES, BESIDE, BRR, IRCR, RDR, SCR, SEMR, SMR, SPCR, SSR, TDR},
    sample::{self, Random},
    word,
};

/// Adds the calls of one list.
pub type Profile = fn(&mut List);

/// The profiles. Their order is part of what a seed gives, and with it of the
/// replay list.
pub const PROFILES: [(&str, Profile); 14] = [
    ("uniform", uniform),
    ("anything", anything),
    ("sending", sending),
    ("receiving", receiving),
    ("both ways", both_ways),
    ("clocked internal", clocked_internal),
    ("clocked external", clocked_external),
    ("start-stop external", start_stop_external),
    ("mode switches", mode_switches),
    ("power", power),
    ("refusals", refusals),
    ("cycles", in_cycles),
    ("cycles and halves", in_both),
    ("counting", counting),
];
/// The first so many pass no cycles, and few of their calls are refused.
pub const IN_HALVES: usize = 10;

/// The list of a seed, and the name of its profile.
pub fn list(seed: u64) -> (&'static str, Vec<Command>) {
    let mut list = List {
        r: Random::new(seed),
        calls: Vec::new(),
    };
    let (name, profile) = PROFILES[list.r.below(PROFILES.len() as u32) as usize];
    profile(&mut list);
    // Half by half, so that each half is compared.
    let calls = if list.r.one_in(3) {
        halves_apart(list.calls)
    } else {
        list.calls
    };
    (name, calls)
}

/// A list of one profile, waits whole.
pub fn of_profile(profile: usize, seed: u64) -> Vec<Command> {
    let mut list = List {
        r: Random::new(seed),
        calls: Vec::new(),
    };
    (PROFILES[profile].1)(&mut list);
    list.calls
}

/// Each wait of a word's length or less as single halves, and as many cycles
/// as single ones.
pub fn halves_apart(calls: Vec<Command>) -> Vec<Command> {
    let single = |c: Command| match c {
        Command {
            kind: 3 | 8 | 9,
            a: 2..=450,
            ..
        } => vec![Command { a: 1, ..c }; c.a as usize],
        _ => vec![c],
    };
    calls.into_iter().flat_map(single).collect()
}

pub struct List {
    r: Random,
    calls: Vec<Command>,
}

impl List {
    fn call(&mut self, kind: u32, a: u32, b: u32) {
        self.calls.push(Command { kind, a, b });
    }
    fn read(&mut self, address: u32) {
        self.call(1, address, 0);
    }
    fn write(&mut self, address: u32, value: u32) {
        self.call(2, address, value);
    }
    fn pass(&mut self, halves: u32) {
        self.call(3, halves, 0);
    }
    fn line(&mut self, level: bool) {
        self.call(4, level.into(), 0);
    }
    fn byte(&mut self) -> u32 {
        self.r.byte().into()
    }

    /// Power, pins, format; then SCR. The format is handed back, and whether
    /// the line is turned round.
    fn open(&mut self, smr: u8, scr: u32) -> (Format, bool) {
        let power = self.r.pick(&[3, 3, 3, 7, 1 | 4]);
        // On the subclock alone the port runs only from the watch tap.
        let tap = if power == 5 {
            1
        } else {
            self.r.pick(&[0, 0, 0, 1, 2, 3])
        };
        let smr = smr & 0xfc | tap;
        let semr = self.r.pick(&[0, 8]);
        let spcr = self.r.pick(&[0x10, 0x10, 0x11, 0x12, 0x13, 0x00]);
        self.call(6, power, 0);
        self.write(SPCR, spcr);
        self.write(SMR, smr.into());
        if semr != 0 {
            self.write(SEMR, semr.into());
        }
        if self.r.one_in(4) {
            let brr = self.byte();
            self.write(BRR, brr);
        }
        let turned = spcr & 1 != 0;
        self.line(!turned);
        self.call(7, 0, 0);
        match self.r.below(4) {
            0 => {}
            1 => self.pass(32 * (1 + semr as u32 / 8)),
            _ => {
                let halves = self.r.below(70);
                self.pass(halves);
            }
        }
        if self.r.one_in(4) {
            self.call(7, 0, 0);
        }
        let enabled = self.r.pick(&[0, 0, 0, 0x80, 0x40, 0x04, 0xc4, 1]);
        self.write(SCR, scr | enabled);
        (format(smr, semr), turned)
    }

    /// One word on the line as cells, well-formed or damaged.
    fn word(&mut self, f: Format, turned: bool) {
        let value = self.r.byte();
        let mut bits = word(f, value);
        let cells = u32::from(model::cells(f));
        let stop = u32::from(model::stop(f));
        let mut length = f.half_bit;
        match self.r.below(12) {
            // A start cell too short: gone at the fall, or at its middle.
            0 => {
                self.line(turned);
                let short = self.r.pick(&[0, 1, 2, length / 2 - 1, length / 2]);
                self.pass(short);
                self.line(!turned);
                let rest = self.r.below(2 * length);
                return self.pass(rest);
            }
            1 => bits ^= 1 << (1 + self.r.below(stop)),
            2 => bits &= !(1 << stop),
            3 => bits &= (1 << stop) - 1,
            4 => bits ^= self.r.byte() as u16,
            5 => length = length + self.r.below(7) - 3,
            _ => {}
        }
        for cell in 0..cells {
            self.line((bits >> cell & 1 != 0) != turned);
            self.pass(length);
        }
        if bits >> (cells - 1) & 1 == 0 && !self.r.one_in(4) {
            self.line(!turned);
        }
        let rest = self.r.pick(&[0, 0, 1, 2, 3, 31, 40]);
        self.pass(rest);
    }

    /// What a program does between words.
    fn tend(&mut self) {
        match self.r.below(8) {
            0 => self.read(SSR),
            1..4 => self.read(RDR),
            4 => {
                self.read(SSR);
                let value = self.r.pick(&[0x00, 0x80, 0x84, 0xc7, 0xbf]);
                self.write(SSR, value);
            }
            5 => {
                self.read(SSR);
                self.read(RDR);
                self.write(SSR, 0x80);
            }
            _ => {}
        }
    }

    /// Give the sender a byte, by TDR or by clearing TDRE.
    fn give(&mut self) {
        if self.r.one_in(4) {
            self.read(SSR);
            let value = self.r.pick(&[0x00, 0x04, 0x7f]);
            self.write(SSR, value);
        } else {
            let value = self.byte();
            self.write(TDR, value);
        }
    }

    fn sample(&mut self) {
        let c = sample::call(&mut self.r);
        self.calls.push(c);
    }
}

/// The calls of `model`, mostly accepted.
fn uniform(l: &mut List) {
    l.calls = sample::opening(&mut l.r);
    for _ in 0..40 + l.r.below(160) {
        l.sample();
    }
}

/// Any call with any operands in range, waits mostly short.
fn anything(l: &mut List) {
    l.call(6, 3, 0);
    for _ in 0..30 + l.r.below(100) {
        let (a, b) = (l.r.below(16), l.r.below(16));
        match 1 + l.r.below(7) {
            1 => {
                let address = l.r.pick(&ADDRESSES);
                l.read(address);
            }
            2 => {
                let address = l.r.pick(&ADDRESSES);
                let value = l.byte();
                l.write(address, value);
            }
            3 => {
                let halves = match l.r.below(400) {
                    0 => l.r.below(65_536),
                    1..100 => l.r.below(400),
                    _ => l.r.below(40),
                };
                l.pass(halves);
            }
            4 => l.call(4, a & 1, b),
            5 => l.call(5, a & 1, b & 1),
            6 if l.r.bit() => l.call(6, 3, 0),
            6 => l.call(6, a, b),
            _ => l.call(7, a, b),
        }
    }
}

fn sending(l: &mut List) {
    let smr = l.r.byte() & 0x7c;
    let (f, _) = l.open(smr, 0x20);
    let cells = u32::from(model::cells(f));
    for _ in 0..4 + l.r.below(16) {
        match l.r.below(12) {
            0 => l.write(SCR, 0x00),
            1 => l.write(SCR, 0x20),
            2 => {
                let smr = l.byte() & 0x7c;
                l.write(SMR, smr);
            }
            3 => l.call(7, 0, 0),
            4 => {
                l.read(SSR);
                l.write(SSR, 0x00);
            }
            _ => l.give(),
        }
        let halves = match l.r.below(6) {
            0 => 0,
            1 => f.half_bit,
            2 => cells * f.half_bit,
            3 => cells * f.half_bit - 1,
            4 => l.r.below(2 * cells * f.half_bit),
            _ => l.r.below(60),
        };
        l.pass(halves);
    }
}

fn receiving(l: &mut List) {
    let smr = l.r.byte() & 0x7c;
    let (f, turned) = l.open(smr, 0x10);
    for _ in 0..3 + l.r.below(8) {
        l.word(f, turned);
        l.tend();
    }
}

fn both_ways(l: &mut List) {
    let smr = l.r.byte() & 0x7c;
    let (f, turned) = l.open(smr, 0x30);
    for _ in 0..3 + l.r.below(6) {
        l.give();
        l.word(f, turned);
        l.give();
        l.tend();
    }
}

fn clocked_internal(l: &mut List) {
    let smr = 0x80 | l.r.byte() & 0x7c;
    let scr = l.r.pick(&[0x10, 0x20, 0x30, 0x30]);
    l.open(smr, scr);
    for _ in 0..10 + l.r.below(40) {
        match l.r.below(10) {
            0 | 1 => l.give(),
            2 => {
                let level = l.r.bit();
                l.line(level);
            }
            3 => l.tend(),
            4 if l.r.one_in(3) => {
                let scr = l.r.pick(&[0x00, 0x10, 0x20, 0x30, 0x32, 0x31]);
                l.write(SCR, scr);
            }
            _ => {
                let halves = l.r.pick(&[1, 2, 2, 4, 5, 16, 31, 32, 33]);
                l.pass(halves);
            }
        }
    }
}

/// An edge of the clock pin, the line moving with it or not.
fn edges(l: &mut List, count: u32, clock: &mut bool) {
    for _ in 0..count {
        *clock = !*clock;
        let line = l.r.bit();
        l.call(5, (*clock).into(), line.into());
    }
}

fn clocked_external(l: &mut List) {
    let smr = 0x80 | l.r.byte() & 0x7c;
    let scr = l.r.pick(&[0x12, 0x22, 0x32, 0x32]);
    l.open(smr, scr);
    let mut clock = true;
    for _ in 0..6 + l.r.below(12) {
        match l.r.below(10) {
            0..3 => l.give(),
            3 => l.tend(),
            4 => {
                // Line alone, the same pins again, time on the pin's clock.
                let line = u32::from(l.r.bit());
                l.call(5, clock.into(), line);
                l.call(5, clock.into(), line);
                l.pass(1);
            }
            5 if l.r.one_in(3) => {
                let scr = l.r.pick(&[0x30, 0x32, 0x12, 0x22, 0x02]);
                l.write(SCR, scr);
            }
            // Stopped, an edge is missed: pin and phase then differ.
            6 if l.r.one_in(3) => {
                let stop = l.r.pick(&[1, 5]);
                l.call(6, stop, 0);
                edges(l, 1, &mut clock);
                l.call(6, 3, 0);
            }
            _ => {
                let count = l.r.pick(&[1, 2, 3, 14, 16, 17]);
                edges(l, count, &mut clock);
            }
        }
    }
}

/// Start-stop words on the external clock: an edge is a half.
fn start_stop_external(l: &mut List) {
    let smr = l.r.byte() & 0x7c;
    let (f, turned) = l.open(smr, 0x32);
    let mut clock = true;
    let mut line = !turned;
    l.give();
    for _ in 0..1 + l.r.below(2) {
        let bits = word(f, l.r.byte());
        for cell in 0..model::cells(f) {
            line = (bits >> cell & 1 != 0) != turned;
            for _ in 0..f.half_bit {
                clock = !clock;
                l.call(5, clock.into(), line.into());
            }
            if l.r.one_in(20) {
                l.pass(3);
            }
        }
        l.tend();
        l.give();
    }
    l.call(5, clock.into(), (!line).into());
}

/// Mode, format and clock change in the middle of words.
fn mode_switches(l: &mut List) {
    let smr = l.r.byte() & 0xfc;
    let (f, turned) = l.open(smr, 0x30);
    for _ in 0..10 + l.r.below(40) {
        match l.r.below(16) {
            0..3 => {
                let smr = l.r.pick(&[0x00, 0x80, 0x80, 0x20, 0x04, 0x78]);
                l.write(SMR, smr);
            }
            3 => {
                let smr = l.byte() & 0xfc;
                l.write(SMR, smr);
            }
            4 => {
                let scr = l.r.pick(&[0x30, 0x30, 0x32, 0x20, 0x10, 0x31]);
                l.write(SCR, scr);
            }
            5 => {
                let semr = l.r.pick(&[0, 8]);
                l.write(SEMR, semr);
            }
            6 => {
                let spcr = l.r.pick(&[0x10, 0x11, 0x13]);
                l.write(SPCR, spcr);
            }
            7..9 => l.give(),
            9 => {
                let (clock, line) = (l.r.bit(), l.r.bit());
                l.call(5, clock.into(), line.into());
            }
            10 => l.line(!turned),
            11 => l.line(turned),
            12 => l.tend(),
            13 if l.r.one_in(3) => l.word(f, turned),
            _ => {
                let halves = l.r.pick(&[1, 2, 3, 7, 16, 30, 32, 64, 150]);
                l.pass(halves);
            }
        }
    }
}

/// Power commands and resets between everything else.
fn power(l: &mut List) {
    let smr = l.r.byte() & 0xfc;
    l.open(smr, 0x30);
    for _ in 0..10 + l.r.below(40) {
        match l.r.below(10) {
            0 | 1 => {
                let bits = l.r.below(16);
                l.call(6, bits, 0);
            }
            2 => {
                let bits = l.r.pick(&[3, 2, 11, 10, 1, 5, 7]);
                l.call(6, bits, 0);
                let scr = l.r.pick(&[0x30, 0x20, 0x10, 0x32]);
                l.write(SCR, scr);
            }
            3 => l.call(6, 3, 0),
            4 => l.write(SCR, 0x30),
            5 => l.give(),
            6 => {
                let (clock, line) = (l.r.bit(), l.r.bit());
                l.call(5, clock.into(), line.into());
            }
            _ => l.sample(),
        }
    }
}

/// Calls that are refused, between calls that are not.
fn refusals(l: &mut List) {
    l.calls = sample::opening(&mut l.r);
    for _ in 0..20 + l.r.below(40) {
        if l.r.bit() {
            l.sample();
        } else {
            let c = refused(&mut l.r);
            l.calls.push(c);
        }
    }
}

/// Cycles for each wait of halves: of the clock that SMR chooses, and about as
/// many as make the halves. Long ones are cut short, since a half may take
/// 16,384 cycles.
struct Cycles {
    smr: u8,
    brr: u8,
}

impl Cycles {
    /// After a call that was accepted; what no call here looks at is left out.
    fn follow(&mut self, c: Command) {
        match c {
            Command {
                kind: 2, a: SMR, b, ..
            } => self.smr = b as u8,
            Command {
                kind: 2, a: BRR, b, ..
            } => self.brr = b as u8,
            Command { kind: 6, a, .. } if a & 1 == 0 || a & 8 != 0 => {
                (self.smr, self.brr) = (0, 255);
            }
            _ => {}
        }
    }
    /// The kind of the chosen clock's cycles, and how many make a half.
    fn half(&self) -> (u32, u32) {
        let (kind, divider) = [(8, 1), (9, 1), (8, 16), (8, 64)][usize::from(self.smr & 3)];
        (kind, divider * (u32::from(self.brr) + 1))
    }
    fn of(&self, halves: u32, r: &mut Random) -> Command {
        let (kind, each) = self.half();
        let most = if r.one_in(400) { 0xffff } else { 1500 };
        let a = match r.below(16) {
            0 => halves * each + r.below(each + 1),
            1 => (halves * each).saturating_sub(1 + r.below(each)),
            _ => halves * each,
        };
        let kind = if r.one_in(40) { 17 - kind } else { kind };
        Command {
            kind,
            a: a.min(most),
            b: 0,
        }
    }
}

/// A list of another profile with waits turned into cycles: all, or one in so
/// many left as it is.
fn turned(l: &mut List, left: u32) {
    let profile = l.r.below(IN_HALVES as u32) as usize;
    (PROFILES[profile].1)(l);
    let mut cycles = Cycles { smr: 0, brr: 255 };
    for c in std::mem::take(&mut l.calls) {
        cycles.follow(c);
        let whole = left > 0 && l.r.below(left) == 0;
        match c.kind {
            3 if !whole => {
                let c = cycles.of(c.a.min(0xffff), &mut l.r);
                l.calls.push(c);
            }
            // Counts short enough for many halves.
            6 if c.a & 9 == 1 && l.r.bit() => {
                l.calls.push(c);
                let brr = l.r.pick(&[0, 0, 0, 0, 1, 1, 2, 9]);
                l.write(BRR, brr);
                cycles.brr = brr as u8;
            }
            _ => l.calls.push(c),
        }
    }
}

/// Work in cycles alone, so that the port stands on the counters throughout.
fn in_cycles(l: &mut List) {
    turned(l, 0);
}

fn in_both(l: &mut List) {
    turned(l, 2);
    for _ in 0..l.r.below(12) {
        let at = l.r.below(l.calls.len() as u32 + 1) as usize;
        let c = sample::cycles(&mut l.r);
        l.calls.insert(at, c);
    }
}

/// The count itself: each choice and each BRR, written with TE and RE on and
/// off, to the last cycle before a half, to the half and beyond; stops, resets,
/// the external clock and cycles of the other clock between.
fn counting(l: &mut List) {
    let power = l.r.pick(&[3, 3, 7]);
    l.call(6, power, 0);
    let mut cycles = Cycles { smr: 0, brr: 255 };
    for _ in 0..40 + l.r.below(80) {
        let before = l.calls.len();
        counted(l, &cycles);
        for c in &l.calls[before..] {
            cycles.follow(*c);
        }
    }
}

/// One turn of it.
fn counted(l: &mut List, cycles: &Cycles) {
    let (kind, each) = cycles.half();
    match l.r.below(24) {
        0..7 => {
            let choice = l.r.below(4);
            l.write(SMR, choice);
            let brr = l.byte();
            l.write(BRR, brr);
            let now = Cycles {
                smr: choice as u8,
                brr: brr as u8,
            };
            let (kind, each) = now.half();
            l.call(kind, each - 1, 0);
            l.call(kind, 1, 0);
        }
        7 | 8 => {
            let scr = l.r.pick(&[0x00, 0x00, 0x10, 0x20, 0x30, 0x02]);
            l.write(SCR, scr);
        }
        9 => {
            let choice = l.r.below(4);
            l.write(SMR, choice);
        }
        10 => {
            let brr = l.byte();
            l.write(BRR, brr);
        }
        // The same value again, which restarts the count too.
        11 => l.write(BRR, cycles.brr.into()),
        12 => l.call(17 - kind, 1 + each % 70, 0),
        13 => {
            let bits = l.r.pick(&[1, 3, 3, 5, 7]);
            l.call(6, bits, 0);
        }
        14 if l.r.one_in(3) => {
            let bits = l.r.pick(&[0, 2, 9, 11]);
            l.call(6, bits, 0);
            l.call(kind, 1, 0);
            l.call(6, 3, 0);
        }
        15 => l.call(7, 0, 0),
        16 => l.call(kind, 0, 0),
        17 => {
            let (clock, line) = (l.r.below(2), l.r.below(2));
            l.call(5, clock, line);
        }
        // From anywhere in a count to the half, one before and one behind it.
        18..21 if each < 2000 => {
            let some = l.r.below(each);
            l.call(kind, some, 0);
            l.call(kind, (each - some).saturating_sub(1), 0);
            l.call(kind, 1, 0);
            l.call(kind, 1, 0);
        }
        _ => {
            let c = sample::cycles(&mut l.r);
            l.calls.push(c);
        }
    }
}

/// Kinds that are none of the nine.
pub const UNKNOWN: [u32; 6] = [0, 10, 11, 255, 256 + 1, u32::MAX];

/// A call with something wrong, or just not wrong.
pub fn refused(r: &mut Random) -> Command {
    let beyond = |r: &mut Random, most: u32| match r.below(4) {
        0 => most,
        1 => most + 1,
        2 => u32::MAX,
        _ => r.below(2 * most + 4),
    };
    let address = |r: &mut Random| match r.below(4) {
        0 => r.pick(&ADDRESSES),
        1 => r.pick(&BESIDE),
        2 => r.below(0x1_0000),
        _ => beyond(r, 0xffff),
    };
    let any = r.byte().into();
    let (kind, a, b) = match r.below(13) {
        0 => (1, address(r), any),
        1 | 2 => (2, address(r), beyond(r, 255)),
        3 => (2, IRCR, r.byte().into()),
        4 => (2, r.pick(&ADDRESSES), beyond(r, 255)),
        5 => (3, 0x1_0000 + r.below(3), any),
        6 => (4, beyond(r, 1), any),
        7 => (5, beyond(r, 1), r.below(2)),
        8 => (5, r.below(2), beyond(r, 1)),
        9 => (6, beyond(r, 15), any),
        10 => (7, any, any),
        // In range it is seldom long: each cycle is stepped.
        11 => {
            let n = match r.below(8) {
                0 if r.one_in(4) => 0xffff,
                0 | 1 => u32::MAX,
                2..5 => 0x1_0000,
                _ => r.below(40),
            };
            (r.pick(&[8, 9]), n, any)
        }
        _ => (r.pick(&UNKNOWN), any, any),
    };
    Command { kind, a, b }
}
