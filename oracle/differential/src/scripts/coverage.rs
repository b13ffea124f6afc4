//! What the scripts of a run reached. Every count is asserted: a run in which
//! one is zero has not compared what it is there to compare.
use super::{
    compare::Same,
    make::{DAMAGES, MADE, Origin, STARTS, profile_name},
};
use crate::{compare::Start, states::BREAKS};
use model::{CYCLES, LIMIT, LOG, RECORD, SCRIPT, State, Tx, counting, cycles, total};

/// The numbers of the table's commands, in order.
const NUMBERS: [&str; 11] = [
    "kind",
    "read address",
    "write address",
    "value",
    "n",
    "line",
    "clock of kind 5",
    "line of kind 5",
    "power bits",
    "system cycles",
    "watch cycles",
];

/// Lengths of scripts that are counted apart, each up to the next.
const LENGTHS: [usize; 11] = [0, 1, 2, 3, 4, 17, 129, 1025, 4097, 8193, SCRIPT];

macro_rules! met {
    ($($name:ident = $text:literal,)*) => {
        /// What must have been met beside the tables.
        #[derive(Clone, Copy)]
        enum Met { $($name),* }
        const MET: &[&str] = &[$($text),*];
    };
}

met! {
    Accepted = "accepted",
    Empty = "empty script accepted",
    EmptyNoLog = "empty script accepted with no log",
    Exact = "accepted, the log full",
    SixLast = "6 by the script's last byte",
    RangeEnds = "2 with the script ended behind it",
    AddressAfterRange = "1 with a value of 255",
    Power = "power command accepted on a counting port",
    LimitWait = "4 by a wait of one half",
    LimitLong = "4 by a wait whose first half would pass",
    LimitPins = "4 by the clock pin",
    LimitSystem = "4 by system cycles",
    LimitWatch = "4 by watch cycles",
    TotalSystem = "10 by system cycles",
    TotalWatch = "10 by watch cycles",
    TotalByOne = "10 by one cycle",
    TotalReached = "a total ends at its limit",
    LimitReached = "the half count ends at the limit",
    FullBroken = "9 before a command that cannot be read",
    FullShort = "9 before a command that is cut",
    FullWhole = "9 before a command that would run",
    EightEmpty = "8 with an empty script",
    EightNoLog = "8 with no log",
    LaterNine = "9 with the program's log full",
    Sent = "words sent",
    Received = "words received",
    ClockedSender = "ends in a clocked word sent",
    ClockedReceiver = "ends in a clocked word received",
    Sender = "ends in a start-stop word sent",
    Receiver = "ends in a start-stop word received",
    Held = "ends with a byte held",
    Halves = "ends past half 65,535",
    Counted = "accepted, halves counted by cycles",
    CountedBoth = "accepted, by cycles and by kind 3",
    SentInCycles = "words sent, no kind 3",
    ReceivedInCycles = "words received, no kind 3",
    ClockedInCycles = "ends in a clocked word, no kind 3",
    Begun = "ends with a count begun",
    BothTotals = "ends with cycles of both clocks",
    CyclesPastReset = "accepted, cycles before a reset and after it",
    PastReset = "accepted, counted before and after a reset",
    LongReset = "accepted, past half 4,095 before a reset",
    LostReset = "refused, counted before a reset",
    ModeReset = "accepted, counted before reset mode",
    PinLength = "accepted, edges of the clock pin alone counted",
    PinReset = "accepted, edges of the clock pin alone counted, then a reset",
    Read = "a value read that is not 0",
    Rdrf = "record with RDRF",
    Overrun = "record with overrun",
    Framing = "record with framing error",
    Parity = "record with parity error",
    NoTend = "record without TEND",
    NoTdre = "record without TDRE",
    LevelLow = "record with level 0",
    LevelHigh = "record with level 1",
    NotDriven = "record with the line not driven",
    Interrupt = "record with interrupt request",
    NoInterrupt = "record without interrupt request",
}

#[derive(Clone)]
pub struct Coverage {
    pub scripts: u64,
    pub bytes: u64,
    pub records: u64,
    /// Accepted commands by kind; refusals by number: at the first command,
    /// and later.
    kinds: [[u64; 10]; 2],
    refusals: [[u64; 11]; 2],
    /// Refusals 2, 5 and 6 by the number where they arose.
    ranges: [u64; NUMBERS.len()],
    shorts: [u64; NUMBERS.len()],
    sixes: [u64; NUMBERS.len()],
    addresses: [u64; 2],
    /// 9 with so many bytes left, accepted with so many.
    full: [u64; RECORD],
    left: [u64; RECORD],
    lengths: [u64; LENGTHS.len()],
    /// Logs of 0 to 16 bytes, and of the program's less 5 to 0.
    small_logs: [u64; 17],
    large_logs: [u64; 6],
    profiles: [u64; MADE],
    damages: [u64; DAMAGES.len()],
    starts: [u64; STARTS.len()],
    breaks: [u64; BREAKS.len()],
    /// Records by their cause.
    causes: [u64; 9],
    met: [u64; MET.len()],
}

impl Default for Coverage {
    fn default() -> Self {
        Self {
            scripts: 0,
            bytes: 0,
            records: 0,
            kinds: [[0; 10]; 2],
            refusals: [[0; 11]; 2],
            ranges: [0; NUMBERS.len()],
            shorts: [0; NUMBERS.len()],
            sixes: [0; NUMBERS.len()],
            addresses: [0; 2],
            full: [0; RECORD],
            left: [0; RECORD],
            lengths: [0; LENGTHS.len()],
            small_logs: [0; 17],
            large_logs: [0; 6],
            profiles: [0; MADE],
            damages: [0; DAMAGES.len()],
            starts: [0; STARTS.len()],
            breaks: [0; BREAKS.len()],
            causes: [0; 9],
            met: [0; MET.len()],
        }
    }
}

/// The number of a command at which reading stopped, by the bytes from the
/// command on, and the bytes read. Only of commands that are refused.
fn stopped(script: &[u8], number: u64) -> (usize, usize) {
    let mut at = 0;
    let mut next = |limit: u32| -> Option<u32> {
        let mut value = 0_u64;
        for group in 0..5 {
            let byte = *script.get(at)?;
            at += 1;
            value |= u64::from(byte & 0x7f) << (7 * group);
            if byte < 0x80 {
                let value = u32::try_from(value).ok()?;
                let shortest = group == 0 || byte != 0;
                return (shortest && value <= limit).then_some(value);
            }
        }
        None
    };
    let kind = next(u32::MAX);
    let operands: &[(usize, u32)] = match kind {
        Some(1) => &[(1, 0xffff)],
        Some(2) => &[(2, 0xffff), (3, 255)],
        Some(3) => &[(4, 0xffff)],
        Some(4) => &[(5, 1)],
        Some(5) => &[(6, 1), (7, 1)],
        Some(6) => &[(8, 15)],
        Some(8) => &[(9, 0xffff)],
        Some(9) => &[(10, 0xffff)],
        _ => &[],
    };
    let mut place = 0;
    for (operand, limit) in operands {
        place = *operand;
        if next(*limit).is_none() {
            break;
        }
    }
    debug_assert!(kind.is_some() || matches!(number, 5 | 6 | 9));
    (place, at)
}

impl Coverage {
    pub fn origin(&mut self, origin: &Origin) {
        self.profiles[origin.profile] += 1;
        self.damages[origin.damage] += 1;
        self.starts[origin.start] += 1;
        if let Some(broken) = origin.broken {
            self.breaks[broken] += 1;
        }
    }

    fn meet(&mut self, met: Met, when: bool) {
        self.met[met as usize] += u64::from(when);
    }

    pub fn note(&mut self, same: &Same) {
        self.scripts += 1;
        self.bytes += same.script.len() as u64;
        let length = same.script.len();
        let bucket = LENGTHS.iter().rposition(|from| *from <= length);
        self.lengths[bucket.unwrap_or(0)] += 1;
        if let Some(count) = self.small_logs.get_mut(same.log.len()) {
            *count += 1;
        }
        if let Some(count) = self.large_logs.get_mut(LOG - same.log.len()) {
            *count += 1;
        }
        self.log(same);
        match same.played.number {
            0 => self.accepted(same),
            _ => self.refused(same),
        }
        self.state(same);
    }

    fn log(&mut self, same: &Same) {
        let written = &same.log[..same.played.written as usize];
        for (place, record) in written.chunks_exact(RECORD).enumerate() {
            self.records += 1;
            self.kinds[usize::from(place > 0)][usize::from(record[0])] += 1;
            self.causes[usize::from(record[5])] += 1;
            let ssr = record[2];
            self.meet(Met::Read, record[0] == 1 && record[1] != 0);
            self.meet(Met::Rdrf, ssr & 0x40 != 0);
            self.meet(Met::Overrun, ssr & 0x20 != 0);
            self.meet(Met::Framing, ssr & 0x10 != 0);
            self.meet(Met::Parity, ssr & 8 != 0);
            self.meet(Met::NoTend, ssr & 4 == 0);
            self.meet(Met::NoTdre, ssr & 0x80 == 0);
            self.meet(Met::LevelLow, record[3] == 0);
            self.meet(Met::LevelHigh, record[3] == 1);
            self.meet(Met::NotDriven, record[3] == 2);
            self.meet(Met::Interrupt, record[4] == 1);
            self.meet(Met::NoInterrupt, record[4] == 0);
        }
        if let Start::Given(state) = same.start {
            let power = written.first() == Some(&6);
            self.meet(Met::Power, power && counting(state));
        }
    }

    fn accepted(&mut self, same: &Same) {
        let left = same.log.len() - same.played.written as usize;
        if let Some(count) = self.left.get_mut(left) {
            *count += 1;
        }
        self.meet(Met::Accepted, true);
        self.meet(Met::Empty, same.script.is_empty());
        let none = same.log.is_empty();
        self.meet(Met::EmptyNoLog, same.script.is_empty() && none);
        self.meet(Met::Exact, left == 0 && !none);
        self.length(same);
    }

    /// Lengths that differ from the last half count, which a reset takes back.
    /// Only from a fresh port: a given one's half count may stand anywhere.
    fn length(&mut self, same: &Same) {
        if *same.start != Start::Fresh {
            return;
        }
        let (length, half) = (same.played.length, u64::from(same.state.half));
        let lost = length - half;
        if same.played.number != 0 {
            self.meet(Met::LostReset, lost > 0);
            return;
        }
        self.meet(Met::PastReset, lost > 0 && half > 0);
        self.meet(Met::LongReset, lost > 0xfff);
        self.meet(
            Met::ModeReset,
            lost > 0 && same.state.reset_mode && half == 0,
        );
        let written = &same.log[..same.played.written as usize];
        let mut kinds = written.chunks_exact(RECORD).map(|record| record[0]);
        let pins = length > 0 && kinds.all(|kind| !matches!(kind, 3 | 8 | 9));
        self.meet(Met::PinLength, pins);
        self.meet(Met::PinReset, pins && lost > 0);
    }

    fn refused(&mut self, same: &Same) {
        self.length(same);
        let number = same.played.number;
        let offset = same.played.offset as usize;
        self.refusals[usize::from(offset > 0)][number as usize] += 1;
        let command = &same.script[offset..];
        if number == 8 {
            self.meet(Met::EightEmpty, same.script.is_empty());
            self.meet(Met::EightNoLog, same.log.is_empty());
            return;
        }
        let (place, size) = stopped(command, number);
        let left = same.log.len() - same.played.written as usize;
        match number {
            1 => {
                self.addresses[place.min(2) / 2] += 1;
                let value = command[..size].ends_with(&[0xff, 1]);
                self.meet(Met::AddressAfterRange, place == 3 && value);
            }
            2 => {
                self.ranges[place] += 1;
                self.meet(Met::RangeEnds, size == command.len());
            }
            4 => {
                let wait = place == 4;
                let far = same.state.half < LIMIT;
                self.meet(Met::LimitWait, wait && command[..size] == [3, 1]);
                self.meet(Met::LimitLong, wait && far);
                self.meet(Met::LimitPins, place == 7);
                self.meet(Met::LimitSystem, place == 9);
                self.meet(Met::LimitWatch, place == 10);
            }
            10 => {
                self.meet(Met::TotalSystem, place == 9);
                self.meet(Met::TotalWatch, place == 10);
                let read = model::decode(same.script, offset);
                let past = read.ok().and_then(|(c, _)| {
                    let total = total(same.state, cycles(c.kind)?);
                    Some(total + u64::from(c.a) - CYCLES)
                });
                self.meet(Met::TotalByOne, past == Some(1));
            }
            5 => self.shorts[place] += 1,
            6 => {
                self.sixes[place] += 1;
                self.meet(Met::SixLast, size == command.len());
            }
            9 => {
                self.full[left] += 1;
                let read = model::decode(same.script, offset);
                self.meet(Met::FullWhole, read.is_ok());
                self.meet(Met::FullShort, read == Err(5));
                self.meet(Met::FullBroken, matches!(read, Err(2 | 6 | 7)));
                self.meet(Met::LaterNine, same.log.len() == LOG);
            }
            _ => {}
        }
    }

    fn state(&mut self, same: &Same) {
        let s = same.state;
        if same.played.number == 8 {
            return;
        }
        // Tallies of given states may stand anywhere.
        if *same.start == Start::Fresh {
            self.meet(Met::Sent, s.transmitted > 0);
            self.meet(Met::Received, s.received > 0);
        }
        let sent = match s.tx {
            Some(Tx::Data { character, .. }) => Some(character.format.synchronous),
            _ => None,
        };
        self.meet(Met::ClockedSender, sent == Some(true));
        self.meet(Met::Sender, sent == Some(false));
        let received = s.rx.map(|rx| rx.format.synchronous);
        self.meet(Met::ClockedReceiver, received == Some(true));
        self.meet(Met::Receiver, received == Some(false));
        self.meet(Met::Held, s.holding.is_some());
        self.meet(Met::Halves, s.half > 0xffff);
        self.in_cycles(same);
        self.meet(
            Met::LimitReached,
            s.half == LIMIT && same.played.written > 0,
        );
    }

    /// What cycles did, where a fresh port began.
    fn in_cycles(&mut self, same: &Same) {
        let (s, written) = (same.state, same.played.written as usize);
        let greatest = s.system == CYCLES || s.watch == CYCLES;
        self.meet(Met::TotalReached, greatest && written > 0);
        if *same.start != Start::Fresh || s.system == 0 && s.watch == 0 {
            return;
        }
        let records = || same.log[..written].chunks_exact(RECORD);
        let alone = records().all(|record| record[0] != 3);
        let clocked = |s: &State| {
            let sent =
                matches!(s.tx, Some(Tx::Data { character, .. }) if character.format.synchronous);
            sent || s.rx.is_some_and(|rx| rx.format.synchronous)
        };
        self.meet(Met::SentInCycles, alone && s.transmitted > 0);
        self.meet(Met::ReceivedInCycles, alone && s.received > 0);
        self.meet(Met::ClockedInCycles, alone && clocked(s));
        let begun = s.remaining != 256 && s.remaining != u16::from(s.brr) + 1;
        self.meet(Met::Begun, begun);
        self.meet(Met::BothTotals, s.system > 0 && s.watch > 0);
        if same.played.number != 0 {
            return;
        }
        let counted = same.played.length > 0;
        let pins = records().any(|record| record[0] == 5);
        self.meet(Met::Counted, alone && !pins && counted);
        self.meet(Met::CountedBoth, !alone && !pins && counted);
        let lost = same.played.length - u64::from(s.half);
        let again = alone && !pins && lost > 0 && s.half > 0;
        self.meet(Met::CyclesPastReset, again);
    }

    pub fn add(&mut self, other: &Self) {
        self.scripts += other.scripts;
        self.bytes += other.bytes;
        self.records += other.records;
        for (sum, more) in self.tables_mut().into_iter().zip(other.tables()) {
            for (sum, (_, more)) in sum.iter_mut().zip(more) {
                *sum += more;
            }
        }
    }

    fn tables_mut(&mut self) -> [&mut [u64]; 19] {
        let [first, later] = &mut self.kinds;
        let [refused, refused_later] = &mut self.refusals;
        [
            &mut first[1..],
            &mut later[1..],
            &mut refused[1..],
            &mut refused_later[1..],
            &mut self.ranges[1..],
            &mut self.shorts,
            &mut self.sixes,
            &mut self.addresses,
            &mut self.full,
            &mut self.left,
            &mut self.lengths,
            &mut self.small_logs,
            &mut self.large_logs,
            &mut self.profiles,
            &mut self.damages,
            &mut self.starts,
            &mut self.breaks,
            &mut self.causes,
            &mut self.met,
        ]
    }

    /// Every count with its name, in the order of `tables_mut`.
    fn tables(&self) -> Vec<Vec<(String, u64)>> {
        let named = |counts: &[u64], name: &dyn Fn(usize) -> String| {
            let rows = counts.iter().enumerate();
            rows.map(|(at, count)| (name(at), *count)).collect()
        };
        vec![
            named(&self.kinds[0][1..], &|at| {
                format!("kind {} accepted first", at + 1)
            }),
            named(&self.kinds[1][1..], &|at| {
                format!("kind {} accepted later", at + 1)
            }),
            named(&self.refusals[0][1..], &|at| {
                format!("number {} at the first command", at + 1)
            }),
            named(&self.refusals[1][1..], &|at| {
                format!("number {} later", at + 1)
            }),
            named(&self.ranges[1..], &|at| format!("2 at {}", NUMBERS[at + 1])),
            named(&self.shorts, &|at| format!("5 at {}", NUMBERS[at])),
            named(&self.sixes, &|at| format!("6 at {}", NUMBERS[at])),
            named(&self.addresses, &|at| {
                format!("1 of a {}", ["read", "write"][at])
            }),
            named(&self.full, &|at| format!("9 with {at} bytes left")),
            named(&self.left, &|at| format!("accepted with {at} bytes left")),
            named(&self.lengths, &|at| {
                format!("script of {} bytes or a little more", LENGTHS[at])
            }),
            named(&self.small_logs, &|at| format!("log of {at} bytes")),
            named(&self.large_logs, &|at| format!("log of {} bytes", LOG - at)),
            named(&self.profiles, &|at| {
                format!("profile {}", profile_name(at))
            }),
            named(&self.damages, &|at| format!("damage {}", DAMAGES[at])),
            named(&self.starts, &|at| format!("start {}", STARTS[at])),
            named(&self.breaks, &|at| {
                format!("field test fails: {}", BREAKS[at].0)
            }),
            named(&self.causes, &|at| format!("record with cause {at}")),
            named(&self.met, &|at| MET[at].into()),
        ]
    }

    /// How many counts there are, and the names of those that are zero. That
    /// 8 has no place but the first is no gap.
    pub fn missing(&self) -> (usize, Vec<String>) {
        let all: Vec<_> = self
            .tables()
            .into_iter()
            .flatten()
            .filter(|(name, _)| name != "number 8 later")
            .collect();
        let zero = all.iter().filter(|(_, count)| *count == 0);
        (all.len(), zero.map(|(name, _)| name.clone()).collect())
    }

    pub fn print(&self) {
        for (name, count) in self.tables().into_iter().flatten() {
            println!("{count:12} {name}");
        }
    }
}
