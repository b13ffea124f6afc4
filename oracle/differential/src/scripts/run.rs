//! Runs over scripts: parts of numbered cases, shared out over threads.
use super::{
    calls::{CallsPlayer, Wrong},
    compare::{Difference, Table},
    coverage::Coverage,
    make::{self, Origin},
    player::{Case, Player, reference},
    shrink::shrink,
};
use crate::{compare::Start, port::OraclePort};
use model::{LOG, RECORD, SCRIPT, bytes};
use std::{
    sync::{
        Mutex,
        atomic::{AtomicU64, Ordering},
    },
    thread,
    time::{Duration, Instant},
};

/// Makes a player, one for each thread.
pub type Make<'a> = &'a (dyn Fn() -> Box<dyn Player> + Sync);

macro_rules! parts {
    ($($name:ident = $letter:literal, $text:literal,)*) => {
        /// Parts of a run. The cases of each are numbered.
        #[derive(Clone, Copy, Debug, PartialEq, Eq)]
        pub enum Part { $($name),* }
        impl Part {
            pub const ALL: &'static [Self] = &[$(Self::$name),*];
            pub fn name(self) -> &'static str {
                match self { $(Self::$name => $letter),* }
            }
            pub fn text(self) -> &'static str {
                match self { $(Self::$name => $text),* }
            }
        }
    };
}

parts! {
    Two = "two", "all scripts of at most two bytes, fresh port, each log of 0 to 13 bytes",
    Three = "three", "scripts of three bytes, fresh port",
    Running = "running", "all scripts of at most two bytes, ports at work",
    RunningThree = "running-three", "scripts of three bytes, a port at work",
    Logs = "logs", "log lengths from 0 to 40,960",
    Lengths = "lengths", "script lengths from 0 to 16,384",
    Resets = "resets", "resets, waits and edges of the clock pin in every order, fresh port",
    Cycles = "cycles", "cycles, choices, BRR writes, stops and resets in every order, fresh port",
    Random = "random", "random scripts",
}

impl Part {
    pub fn named(name: &str) -> Option<Self> {
        Self::ALL.iter().copied().find(|part| part.name() == name)
    }
}

const BYTES: u64 = 256;
/// Scripts of at most two bytes.
const TWO: u64 = 1 + BYTES + BYTES * BYTES;
const THREE: u64 = BYTES * BYTES * BYTES;
/// Logs of the shortest scripts: two records and a byte more.
const SHORT_LOGS: u64 = 14;
/// The log of scripts of three bytes: three records and a byte more.
const THREE_LOG: usize = 19;
/// Scripts of each length, and of each log length.
const EACH: u64 = 2;

/// Commands of the part `resets`, on a port that is switched on: the module on
/// and off, reset mode, the clock that stands, a wait, and the clock pin with
/// its two levels. Every script of at most so many.
const TURNS: [&str; 9] = [
    "06 03",
    "06 00",
    "06 0B",
    "06 01",
    "03 05",
    "02 9A FF 03 02",
    "02 9A FF 03 00",
    "05 00 01",
    "05 01 01",
];
const MOST_TURNS: u32 = 6;

/// Commands of the part `cycles`, on a port that is switched on and has two
/// ticks to each half: cycles of both clocks, each choice, a BRR of one tick, TE
/// on and off, the external clock, a stop, and a module reset. None is kind 3.
const COUNTS: [&str; 14] = [
    "08 01",
    "08 0F",
    "08 3F",
    "09 01",
    "02 98 FF 03 00",
    "02 98 FF 03 01",
    "02 98 FF 03 02",
    "02 98 FF 03 03",
    "02 99 FF 03 00",
    "02 9A FF 03 20",
    "02 9A FF 03 02",
    "06 01",
    "06 03",
    "06 00",
];
const MOST_COUNTS: u32 = 5;

/// The script of a number in those parts: shorter ones first.
fn turns(opening: &str, turns: &[&str], mut number: u64) -> Vec<u8> {
    let many = turns.len() as u64;
    let mut script = bytes(opening);
    while number > 0 {
        number -= 1;
        script.extend(bytes(turns[(number % many) as usize]));
        number /= many;
    }
    script
}
/// How many of at most so many commands.
fn orders(turns: &[&str], most: u32) -> u64 {
    (0..=most).map(|n| (turns.len() as u64).pow(n)).sum()
}

/// Scripts whose ports are at work: sending and receiving in start-stop form,
/// the clock pin counted, clocked output, reset mode, the line turned; then one
/// tick before a half, by a watch cycle and by one that system/16 counts.
const WORK: [&str; 7] = [
    "06 03 02 91 FF 03 10 02 9A FF 03 F0 03 E0 02 02 9B FF 03 55 04 00 03 35",
    "06 03 02 98 FF 03 80 01 02 9A FF 03 32 02 9B FF 03 0F 05 00 01 05 01 01",
    "06 03 02 98 FF 03 80 01 02 91 FF 03 10 02 9A FF 03 B0 01 02 9B FF 03 AA 03 2B",
    "06 05 02 98 FF 03 21 02 9A FF 03 30 03 40 06 0D 04 00",
    "06 03 02 91 FF 03 13 02 A6 FF 03 08 02 9A FF 03 30 04 01 03 28",
    "06 03 02 91 FF 03 10 02 98 FF 03 01 02 9A FF 03 30 09 FF 01 04 00",
    "08 0F 06 03 02 98 FF 03 82 01 02 99 FF 03 00 02 9A FF 03 30 02 9B FF 03 55",
];

/// The script of a number: shorter ones first, low byte first.
fn short(number: u64) -> Vec<u8> {
    let (mut rest, mut length) = (number, 0);
    let mut count = 1;
    while rest >= count {
        rest -= count;
        count *= BYTES;
        length += 1;
    }
    (0..length)
        .map(|place| (rest >> (8 * place)) as u8)
        .collect()
}

/// How a part is walked: its cases, and every how many-th is taken.
#[derive(Clone, Copy, Debug)]
pub struct Walk {
    pub part: Part,
    pub first: u64,
    pub end: u64,
    pub step: u64,
}

impl Walk {
    /// The whole part; `Random` has no end of its own.
    pub fn whole(part: Part) -> Self {
        let end = match part {
            Part::Two => TWO * SHORT_LOGS,
            Part::Three | Part::RunningThree => THREE,
            Part::Running => TWO * WORK.len() as u64,
            Part::Logs => (LOG as u64 + 1) * EACH,
            Part::Lengths => (SCRIPT as u64 + 1) * EACH,
            Part::Resets => orders(&TURNS, MOST_TURNS),
            Part::Cycles => orders(&COUNTS, MOST_COUNTS),
            Part::Random => u64::MAX,
        };
        Self {
            part,
            first: 0,
            end,
            step: 1,
        }
    }
    pub fn every(self, step: u64) -> Self {
        Self { step, ..self }
    }
    pub fn from(self, first: u64, count: u64) -> Self {
        let end = self
            .end
            .min(first.saturating_add(count.saturating_mul(self.step)));
        Self { first, end, ..self }
    }
    /// The last ones only.
    fn last(self, count: u64) -> Self {
        self.from(self.end - count, count)
    }
}

/// The ports at work, and commands to fill a log with.
pub struct Ground {
    work: Vec<Start>,
    filling: Vec<u8>,
}

impl Default for Ground {
    fn default() -> Self {
        let work = WORK.map(|script| {
            let script = bytes(script);
            let mut log = vec![0; script.len() * RECORD];
            let (_, state) = reference(&Start::Fresh, &script, &mut log)
                .unwrap_or_else(|fault| panic!("{fault}"));
            Start::Given(state)
        });
        let mut filling = bytes("06 03");
        for number in 1..LOG / RECORD + 1 {
            filling.extend_from_slice(match number % 16 {
                0 => &[4, 0],
                5 => &[4, 1],
                7 => &[3, 1],
                11 => &[3, 0],
                13 => &[6, 3],
                15 => &[3, 16],
                _ => &[7],
            });
        }
        Self {
            work: work.to_vec(),
            filling,
        }
    }
}

impl Ground {
    /// The case of a number, and where it comes from if it is random.
    pub fn case(&self, part: Part, number: u64) -> (Option<Origin>, Case) {
        let fixed = |start: &Start, script: Vec<u8>, log: usize| {
            let case = Case {
                start: start.clone(),
                script,
                log,
            };
            (None, case)
        };
        match part {
            Part::Two => fixed(
                &Start::Fresh,
                short(number / SHORT_LOGS),
                (number % SHORT_LOGS) as usize,
            ),
            Part::Three => fixed(&Start::Fresh, short(TWO + number), THREE_LOG),
            Part::Running => {
                let many = self.work.len() as u64;
                let start = &self.work[(number % many) as usize];
                fixed(start, short(number / many), THREE_LOG)
            }
            Part::RunningThree => fixed(&self.work[0], short(TWO + number), THREE_LOG),
            Part::Logs => {
                let log = (number / EACH) as usize;
                // Just as many commands as records fit, and one more.
                let commands = log / RECORD + (number % EACH) as usize;
                fixed(&Start::Fresh, self.filled(commands), log)
            }
            Part::Lengths => {
                let length = (number / EACH) as usize;
                let seed = 0x1e46_0000_0000 + number;
                let (origin, case) = make::case(seed, Some(length));
                (Some(origin), case)
            }
            // Each command has a record's room, and the next too.
            Part::Resets => fixed(
                &Start::Fresh,
                turns("06 03", &TURNS, number),
                RECORD * (MOST_TURNS as usize + 2),
            ),
            Part::Cycles => fixed(
                &Start::Fresh,
                turns("06 03 02 99 FF 03 01", &COUNTS, number),
                RECORD * (MOST_COUNTS as usize + 3),
            ),
            Part::Random => {
                let (origin, case) = make::case(number, None);
                (Some(origin), case)
            }
        }
    }

    /// The first so many commands to fill a log with.
    fn filled(&self, commands: usize) -> Vec<u8> {
        let mut at = 0;
        for _ in 0..commands {
            at += if self.filling[at] == 7 { 1 } else { 2 };
        }
        self.filling[..at].to_vec()
    }
}

/// A script on which the sides differ.
#[derive(Clone, Debug)]
pub struct Found {
    pub part: Part,
    pub number: u64,
    pub about: String,
    pub case: Case,
    pub difference: Difference,
}

#[derive(Default)]
pub struct Outcome {
    pub coverage: Coverage,
    pub found: Option<Found>,
}

/// Walk until its end, the first difference, or the time is over. Of several
/// differences the one with the lowest number is kept, so that a walk gives
/// the same with any number of threads.
pub fn run(make: Make, walk: &Walk, time: Option<Duration>, threads: u64) -> Outcome {
    let begun = Instant::now();
    let lowest = AtomicU64::new(u64::MAX);
    let outcome = Mutex::new(Outcome::default());
    let ground = Ground::default();
    let share = |own: u64| {
        let mut table = Table::new(make());
        let mut coverage = Coverage::default();
        let mut found = None;
        let mut number = walk.first + own * walk.step;
        while number < walk.end.min(lowest.load(Ordering::Relaxed)) {
            if time.is_some_and(|time| begun.elapsed() >= time) {
                break;
            }
            let (origin, case) = ground.case(walk.part, number);
            let result = table.play(&case, &mut |same| coverage.note(same));
            if let Err(difference) = result {
                lowest.fetch_min(number, Ordering::Relaxed);
                found = Some(Found {
                    part: walk.part,
                    number,
                    about: origin.map_or(walk.part.text().into(), |origin| origin.text()),
                    case,
                    difference: *difference,
                });
                break;
            }
            if let Some(origin) = origin {
                coverage.origin(&origin);
            }
            number = match number.checked_add(threads * walk.step) {
                Some(next) => next,
                None => break,
            };
        }
        let mut all = outcome.lock().expect("no thread has panicked");
        all.coverage.add(&coverage);
        if let Some(found) = found
            && all
                .found
                .as_ref()
                .is_none_or(|other| found.number < other.number)
        {
            all.found = Some(found);
        }
    };
    thread::scope(|scope| {
        for own in 0..threads {
            let share = &share;
            scope.spawn(move || share(own));
        }
    });
    outcome.into_inner().expect("no thread has panicked")
}

/// What is printed of a difference.
pub fn report(make: Make, found: &Found) -> String {
    let mut table = Table::new(make());
    let mut lines = vec![
        format!(
            "DIFFERENCE in part {}, number {} ({}), {}",
            found.part.name(),
            found.number,
            found.about,
            found.difference
        ),
        format!(
            "  again: --part {} --seed {} --scripts 1",
            found.part.name(),
            found.number
        ),
    ];
    let (case, difference) = shrink(&mut table, &found.case, found.difference.clone());
    lines.push(format!("  smallest script found: {difference}"));
    lines.extend(shown(&case, &difference));
    lines.join("\n")
}

/// A case and its two ends, in words.
pub fn shown(case: &Case, difference: &Difference) -> Vec<String> {
    let script: Vec<String> = case.script.iter().map(|b| format!("{b:02X}")).collect();
    let start = match &case.start {
        Start::Fresh => "a fresh port".into(),
        Start::Given(state) => format!("{state:?}"),
    };
    let [reference, player] = &difference.ends;
    vec![
        format!("    from {start}"),
        format!("    log of {} bytes", case.log),
        format!("    script of {} bytes: {}", script.len(), script.join(" ")),
        format!("    reference: {reference}"),
        format!("    player: {player}"),
    ]
}

/// What the gate walks: all that is short, of the log and script lengths some
/// and both ends. The steps are odd and no multiples of five, so that they meet
/// both scripts of a length and every place in a record.
pub fn gate(scripts: u64, seed: u64) -> Vec<Walk> {
    vec![
        Walk::whole(Part::Two),
        Walk::whole(Part::Three),
        Walk::whole(Part::Running),
        Walk::whole(Part::Logs).from(0, 100 * EACH),
        Walk::whole(Part::Logs).every(139),
        Walk::whole(Part::Logs).last(12 * EACH),
        Walk::whole(Part::Lengths).every(61),
        Walk::whole(Part::Lengths).last(4 * EACH),
        Walk::whole(Part::Resets),
        Walk::whole(Part::Cycles),
        Walk::whole(Part::Random).from(seed, scripts),
    ]
}

/// What the long run walks: every part whole.
pub fn long(scripts: u64, seed: u64) -> Vec<Walk> {
    vec![
        Walk::whole(Part::Two),
        Walk::whole(Part::Three),
        Walk::whole(Part::Running),
        Walk::whole(Part::RunningThree),
        Walk::whole(Part::Logs),
        Walk::whole(Part::Lengths),
        Walk::whole(Part::Resets),
        Walk::whole(Part::Cycles),
        Walk::whole(Part::Random).from(seed, scripts),
    ]
}

/// What finds wrong players, quick parts first.
pub fn trial(scripts: u64, seed: u64) -> Vec<Walk> {
    let mut walks = vec![
        Walk::whole(Part::Running).every(7),
        Walk::whole(Part::Random).from(seed, 1000),
        Walk::whole(Part::Two).every(7),
        Walk::whole(Part::Resets).every(7),
        Walk::whole(Part::Cycles).every(101),
    ];
    let lengths = [Part::Logs, Part::Lengths];
    let gate = gate(0, seed).into_iter();
    walks.extend(gate.filter(|walk| lengths.contains(&walk.part)));
    walks.push(Walk::whole(Part::Random).from(seed + 1000, scripts));
    walks.push(Walk::whole(Part::Three).every(19));
    walks
}

/// How one wrong player fared.
pub struct Tried {
    pub wrong: Wrong,
    pub scripts: u64,
    /// The part that found it, the field named, and the smallest script's
    /// length.
    pub found: Option<(Part, String, usize)>,
}

/// Each wrong player until it is reported. What is reported must not differ
/// for the right player.
pub fn self_test(walks: &[Walk], threads: u64) -> Vec<Tried> {
    let tried = |wrong: Wrong| {
        let mut scripts = 0;
        let make =
            || -> Box<dyn Player> { Box::new(CallsPlayer::wrong(OraclePort::default(), wrong)) };
        for walk in walks {
            let outcome = run(&make, walk, None, threads);
            scripts += outcome.coverage.scripts;
            if let Some(found) = outcome.found {
                let mut table = Table::new(make());
                let (case, difference) = shrink(&mut table, &found.case, found.difference);
                let right = Box::new(CallsPlayer::new(OraclePort::default()));
                let stands = table.play(&case, &mut |_| {}).is_err()
                    && Table::new(right).play(&case, &mut |_| {}).is_ok();
                return Tried {
                    wrong,
                    scripts,
                    found: stands.then_some((found.part, difference.field, case.script.len())),
                };
            }
        }
        Tried {
            wrong,
            scripts,
            found: None,
        }
    };
    Wrong::ALL.iter().map(|wrong| tried(*wrong)).collect()
}
