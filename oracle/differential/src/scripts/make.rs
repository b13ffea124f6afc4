//! Scripts, by seed: lists of calls written as bytes, damaged or not, and the
//! log lengths that are tried with them.
use super::player::{Case, reference};
use crate::{
    compare::Start,
    lists::{self, PROFILES},
    states,
};
use model::{
    Command, LOG, RECORD, SCRIPT, ranges,
    registers::{ADDRESSES, BESIDE, IRCR, SCR, SEMR, SMR, SPCR},
    sample::{self, Random},
};

/// A number in shortest form.
fn put_number(bytes: &mut Vec<u8>, mut value: u32) {
    while value > 0x7f {
        bytes.push(value as u8 | 0x80);
        value >>= 7;
    }
    bytes.push(value as u8);
}

pub(super) fn shortest(value: u32) -> Vec<u8> {
    let mut bytes = Vec::new();
    put_number(&mut bytes, value);
    bytes
}

/// The numbers of a command: kind and operands. A kind that is none of the
/// table's gets one operand, which nobody should read.
pub(super) fn numbers(c: Command) -> Vec<u32> {
    match c.kind {
        2 | 5 => vec![c.kind, c.a, c.b],
        7 => vec![7],
        _ => vec![c.kind, c.a],
    }
}

/// A script and where its commands begin.
#[derive(Clone, Debug, Default)]
pub struct Script {
    pub bytes: Vec<u8>,
    pub starts: Vec<usize>,
    commands: Vec<Command>,
}

impl Script {
    pub fn of(commands: &[Command]) -> Self {
        let mut script = Self::default();
        for c in commands {
            script.push(*c);
        }
        script
    }
    pub fn push(&mut self, c: Command) {
        self.starts.push(self.bytes.len());
        self.commands.push(c);
        for number in numbers(c) {
            put_number(&mut self.bytes, number);
        }
    }
    pub fn commands(&self) -> usize {
        self.commands.len()
    }
    /// The bytes with other numbers in place of one command.
    fn with(&self, at: usize, other: &[u8]) -> Vec<u8> {
        let end = self.starts.get(at + 1).copied();
        let mut bytes = self.bytes[..self.starts[at]].to_vec();
        bytes.extend_from_slice(other);
        bytes.extend_from_slice(&self.bytes[end.unwrap_or(self.bytes.len())..]);
        bytes
    }
}

/// The profiles of calls, one of registers alone, and bytes.
pub const STORM: usize = PROFILES.len();
pub const BYTES: usize = STORM + 1;
pub const MADE: usize = BYTES + 1;

pub fn profile_name(profile: usize) -> &'static str {
    match profile {
        STORM => "register storm",
        BYTES => "bytes",
        _ => PROFILES[profile].0,
    }
}

/// Commands of a profile, as many as it gives at once.
fn commands(profile: usize, r: &mut Random) -> Vec<Command> {
    match profile {
        STORM => storm(r),
        _ => lists::of_profile(profile, u64::from(r.below(u32::MAX))),
    }
}

/// Formats, clocks and pin functions switched all the time, with reads and
/// short waits between.
fn storm(r: &mut Random) -> Vec<Command> {
    let call = |kind, a, b| Command { kind, a, b };
    let mut all = vec![call(6, 3, 0)];
    // In halves, in cycles, or in both.
    let time = r.below(3);
    for _ in 0..20 + r.below(60) {
        let value = u32::from(r.byte());
        all.push(match r.below(12) {
            0 => call(2, SPCR, value),
            1 | 2 => call(2, SMR, value),
            3 => call(2, SEMR, value),
            4 | 5 => call(2, SCR, value & r.pick(&[0xff, 0xfd, 0xfd])),
            6 => call(2, r.pick(&ADDRESSES), value & 0x7f),
            7 | 8 => call(1, r.pick(&ADDRESSES), 0),
            9 => call(r.pick(&[4, 5]), r.below(2), r.below(2)),
            _ if time == 1 || time == 2 && r.bit() => sample::cycles(r),
            _ => call(3, r.pick(&[0, 1, 2, 15, 16, 17, 32, 33]), 0),
        });
    }
    all
}

/// A well-formed script of at most so many bytes; with `exact` of just so
/// many, filled up with kind 7.
pub fn script(profile: usize, length: usize, exact: bool, r: &mut Random) -> Script {
    let mut script = Script::default();
    'full: loop {
        for c in commands(profile, r) {
            let size: usize = numbers(c).into_iter().map(|n| shortest(n).len()).sum();
            if script.bytes.len() + size > length {
                break 'full;
            }
            script.push(c);
        }
        if !exact && r.one_in(3) {
            break;
        }
    }
    while exact && script.bytes.len() < length {
        script.push(Command {
            kind: 7,
            a: 0,
            b: 0,
        });
    }
    script
}

/// Bytes of any value, and of those that make commands.
pub fn any_bytes(length: usize, r: &mut Random) -> Vec<u8> {
    let any = r.one_in(3);
    (0..length)
        .map(|_| match r.below(8) {
            _ if any => r.byte(),
            0 => r.byte(),
            1 => r.pick(&[0x80, 0x81, 0xff, 0x9a, 0x9c, 0x9d, 0x98]),
            2 => r.pick(&[0xff, 0x03, 0x03, 0x00]),
            _ => r.below(11) as u8,
        })
        .collect()
}

const CUT: usize = 3;
const LAST_CUT: usize = 4;

/// What is done to a script.
pub const DAMAGES: [&str; 16] = [
    "none",
    "bit flipped",
    "byte replaced",
    "cut",
    "last byte cut",
    "byte inserted",
    "byte removed",
    "number not shortest",
    "number too large",
    "number of six bytes",
    "kind 0 or above 9",
    "operand above its range",
    "address outside the nine",
    "IRCR bit 7",
    "bytes of another place",
    "two of these",
];

/// The command that is damaged: the first, the last, any.
fn target(script: &Script, r: &mut Random) -> usize {
    match r.below(4) {
        0 => 0,
        1 => script.commands() - 1,
        _ => r.below(script.commands() as u32) as usize,
    }
}

fn place(bytes: &[u8], r: &mut Random) -> usize {
    match r.below(6) {
        0 => 0,
        1 => bytes.len() - 1,
        _ => r.below(bytes.len() as u32) as usize,
    }
}

/// A number's bytes, spoilt.
fn not_shortest(value: u32, r: &mut Random) -> Vec<u8> {
    let mut bytes = shortest(value);
    let zeros = 1 + r.below(4) as usize;
    for _ in 0..zeros {
        if bytes.len() == 5 {
            break;
        }
        *bytes.last_mut().expect("a number has a byte") |= 0x80;
        bytes.push(0);
    }
    bytes
}

fn too_large(r: &mut Random) -> Vec<u8> {
    let mut bytes: Vec<u8> = (0..4).map(|_| r.byte() | 0x80).collect();
    bytes.push(r.pick(&[0x10, 0x11, 0x1f, 0x20, 0x7f]));
    bytes
}

fn six_bytes(r: &mut Random) -> Vec<u8> {
    let mut bytes: Vec<u8> = (0..4).map(|_| r.byte() | 0x80).collect();
    bytes.push(r.pick(&[0x80, 0x81, 0x8f, 0xff]));
    bytes.push(r.pick(&[0, 1, 0x7f]));
    bytes
}

/// The command's numbers, one of them written by `spoil`.
fn spoilt(c: Command, which: usize, spoil: impl FnOnce(u32) -> Vec<u8>) -> Vec<u8> {
    let mut bytes = Vec::new();
    let mut spoil = Some(spoil);
    for (at, number) in numbers(c).into_iter().enumerate() {
        match spoil.take_if(|_| at == which) {
            Some(spoil) => bytes.extend(spoil(number)),
            None => put_number(&mut bytes, number),
        }
    }
    bytes
}

/// The script, damaged. One that is too short for a damage is left alone.
pub fn damaged(script: &Script, damage: usize, r: &mut Random) -> Vec<u8> {
    let mut bytes = script.bytes.clone();
    if bytes.is_empty() {
        return bytes;
    }
    let at = target(script, r);
    let c = script.commands[at];
    match damage {
        1 => {
            let place = place(&bytes, r);
            bytes[place] ^= 1 << r.below(8);
        }
        2 => {
            let place = place(&bytes, r);
            bytes[place] = r.byte();
        }
        CUT => bytes.truncate(place(&script.bytes, r)),
        LAST_CUT => {
            bytes.pop();
        }
        5 => bytes.insert(place(&script.bytes, r), any_bytes(1, r)[0]),
        6 => {
            bytes.remove(place(&script.bytes, r));
        }
        7..10 => {
            let which = r.below(numbers(c).len() as u32) as usize;
            bytes = script.with(
                at,
                &spoilt(c, which, |number| match damage {
                    7 => not_shortest(number, r),
                    8 => too_large(r),
                    _ => six_bytes(r),
                }),
            );
        }
        10 => {
            let kind = r.pick(&[
                0,
                10,
                11,
                15,
                127,
                128,
                129,
                137,
                256 + 8,
                1 << 14,
                u32::MAX,
            ]);
            bytes = script.with(at, &spoilt(c, 0, |_| shortest(kind)));
        }
        11 => {
            let most = ranges(c.kind).unwrap_or_default();
            if most.is_empty() {
                return bytes;
            }
            let which = r.below(most.len() as u32) as usize;
            let above = match r.below(4) {
                0 | 1 => most[which] + 1,
                2 => u32::MAX,
                _ => most[which] + 1 + r.below(1 << 20),
            };
            bytes = script.with(at, &spoilt(c, 1 + which, |_| shortest(above)));
        }
        12 => {
            let c = Command {
                kind: if r.bit() { 1 } else { 2 },
                a: match r.below(3) {
                    0 => r.below(0x1_0000),
                    _ => r.pick(&BESIDE),
                },
                // Row 2 is tested before row 1.
                b: r.pick(&[0, 255, 256]),
            };
            bytes = script.with(at, &Script::of(&[c]).bytes);
        }
        13 => {
            let any = 0x80 | u32::from(r.byte());
            let value = r.pick(&[0x80, 0xff, any, 0x180]);
            let c = Command {
                kind: 2,
                a: IRCR,
                b: value,
            };
            bytes = script.with(at, &Script::of(&[c]).bytes);
        }
        14 => {
            let from = place(&bytes, r);
            let end = (from + 1 + r.below(8) as usize).min(bytes.len());
            let run = bytes[from..end].to_vec();
            let to = place(&bytes, r);
            bytes.splice(to..to, run);
        }
        15 => {
            // Structure first, since the starts belong to the whole script.
            let first = 7 + r.below(7) as usize;
            bytes = damaged(script, first, r);
            let place = place(&bytes, r);
            bytes[place] = r.byte();
        }
        _ => {}
    }
    bytes
}

/// A log length for a script of so many commands: at the ends of records,
/// near nothing, near the whole, and more than enough.
pub fn log_length(commands: usize, r: &mut Random) -> usize {
    let all = commands * RECORD;
    let length = match r.below(16) {
        0 => r.below(17) as usize,
        1 => LOG - r.below(6) as usize,
        2 => r.below(LOG as u32 + 1) as usize,
        // The end of some record, or a little about it.
        3..6 => {
            let end = r.below(commands as u32 + 1) as usize * RECORD;
            (end + r.below(9) as usize).saturating_sub(4)
        }
        6 => all.saturating_sub(1),
        7 => all,
        _ => all + r.below(2 * RECORD as u32) as usize,
    };
    length.min(LOG)
}

/// Where a case comes from.
#[derive(Clone, Copy, Debug, PartialEq, Eq)]
pub struct Origin {
    pub profile: usize,
    pub damage: usize,
    pub start: usize,
    /// How the field test fails, where it does.
    pub broken: Option<usize>,
}

pub const STARTS: [&str; 5] = [
    "fresh",
    "grown",
    "given",
    "given, with its calls",
    "failing",
];

impl Origin {
    pub fn text(&self) -> String {
        format!(
            "profile {}, damage {}, start {}",
            profile_name(self.profile),
            DAMAGES[self.damage],
            STARTS[self.start]
        )
    }
}

/// The length of a random script: mostly short, up to the limit.
fn length(r: &mut Random) -> usize {
    let most = match r.below(64) {
        0 => SCRIPT as u32,
        1..4 => 4096,
        4..20 => 512,
        20..48 => 128,
        _ => 24,
    };
    match r.below(most * 16) {
        0 => most as usize,
        other => (other % most) as usize,
    }
}

/// A state that an earlier script left.
fn grown(r: &mut Random) -> Start {
    let profile = r.below(BYTES as u32) as usize;
    let script = script(profile, 40 + r.below(400) as usize, false, r);
    let mut log = vec![0; script.commands() * RECORD];
    match reference(&Start::Fresh, &script.bytes, &mut log) {
        Ok((_, state)) => Start::Given(state),
        // The fault shows where the same script is played for itself.
        Err(_) => Start::Fresh,
    }
}

/// The case of a seed; of one length where it is given.
pub fn case(seed: u64, exact: Option<usize>) -> (Origin, Case) {
    let r = &mut Random::new(seed);
    let start = match r.below(32) {
        0..20 => 0,
        20..26 => 1,
        26..28 => 2,
        28..31 => 3,
        _ => 4,
    };
    let mut aimed = None;
    let mut broken = None;
    let first = match start {
        0 => Start::Fresh,
        1 => grown(r),
        4 => {
            let (how, failing) = states::failing(u64::from(r.below(u32::MAX)));
            broken = Some(how);
            failing.start
        }
        _ => {
            let given = states::given(u64::from(r.below(u32::MAX)));
            aimed = Some(given.calls).filter(|_| start == 3);
            given.start
        }
    };
    let profile = r.below(MADE as u32) as usize;
    let damage = match r.below(2) {
        0 => 0,
        _ => r.below(DAMAGES.len() as u32) as usize,
    };
    let length = exact.unwrap_or_else(|| length(r));
    // A cut one of a given length is cut from a longer one.
    let cut = exact.is_some() && matches!(damage, CUT | LAST_CUT);
    let (mut bytes, commands) = if profile == BYTES {
        (any_bytes(length, r), length)
    } else {
        let mut whole = match aimed {
            Some(calls) if exact.is_none() => Script::of(&calls),
            _ => {
                let longer = if cut { 1 + r.below(5) as usize } else { 0 };
                script(profile, length + longer, exact.is_some(), r)
            }
        };
        if exact.is_none() && r.one_in(16) {
            whole.push(lists::refused(r));
        }
        let damage = if cut { 0 } else { damage };
        (damaged(&whole, damage, r), whole.commands())
    };
    match exact {
        Some(length) => bytes.resize(length, 7),
        None => bytes.truncate(SCRIPT),
    }
    let case = Case {
        start: first,
        script: bytes,
        log: log_length(commands, r),
    };
    let origin = Origin {
        profile,
        damage: if profile == BYTES { 0 } else { damage },
        start,
        broken,
    };
    (origin, case)
}
