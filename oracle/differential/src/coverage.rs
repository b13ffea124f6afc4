//! What a run reached. Every count is asserted: a run in which one is zero
//! has not compared what it is there to compare.
use crate::{
    compare::{Step, counted, resets},
    lists::PROFILES,
    states::BREAKS,
};
use model::{
    Answer, CYCLES, Character, Clock, ClockDrive, LIMIT, Rx, State, Tx, choice, counting, cycles,
    format, halves,
    registers::{BRR, RDR, SCR, SMR, SSR, TDR},
    running, total,
};

macro_rules! table {
    ($(#[$doc:meta])* $name:ident { $($row:ident = $text:literal,)* }) => {
        $(#[$doc])*
        #[derive(Clone, Copy, Debug, PartialEq, Eq)]
        pub enum $name { $($row),* }
        impl $name {
            pub const ALL: &'static [Self] = &[$(Self::$row),*];
            pub fn text(self) -> &'static str {
                match self { $(Self::$row => $text),* }
            }
        }
    };
}

table! {
    /// The sender before a call: its states, apart where they act apart.
    Sender {
        Off = "no sender",
        Blocked = "blocked",
        Mark = "mark",
        Start = "start",
        Data = "data",
        ClockedData = "data, clocked",
        TailWord = "tail, word",
        Tail = "tail",
        ClockedTailWord = "tail, word, clocked",
        ClockedTail = "tail, clocked",
    }
}

table! {
    /// What happens to a sender.
    Event {
        Due = "half due",
        Half = "half not due",
        Fall = "clocked fall",
        Rise = "clocked rise",
        TeOff = "TE off",
        TeOn = "TE on",
        TeStays = "SCR, TE stays",
        Tdr = "TDR write",
        Ssr = "SSR write",
        SsrLoads = "SSR write loads",
        Mode = "mode switch",
        Write = "other write",
        Ignored = "write ignored",
        Read = "read",
        Line = "line",
        Module = "module reset",
        ResetMode = "reset mode",
        Power = "power only",
        Inside = "kind 7",
        Cycles = "kinds 8 and 9",
        Refused = "refused",
    }
}

table! {
    /// Everything else that must have been met.
    Met {
        FallMark = "receiver: dropped at -2, line at mark",
        FallClocked = "receiver: dropped at -2, clocked form",
        FallTaken = "receiver: fall taken",
        StartMark = "receiver: dropped at -1",
        StartTaken = "receiver: start cell taken",
        DataZero = "receiver: data bit 0",
        DataOne = "receiver: data bit 1",
        ParityOk = "receiver: parity ok",
        ParityFault = "receiver: parity fault",
        Complete = "receiver: complete ok",
        Framing = "receiver: complete, framing fault",
        ParityWord = "receiver: complete, parity fault",
        BothFaults = "receiver: complete, both faults",
        Overrun = "receiver: complete, overrun",
        OverrunFault = "receiver: complete, overrun and fault",
        ClockedBit = "receiver: clocked bit",
        ClockedFirst = "receiver: clocked word begun",
        ClockedComplete = "receiver: clocked complete",
        ClockedOverrun = "receiver: clocked complete, overrun",
        ClockedError = "receiver: clocked complete, error given",
        ClockedWaits = "receiver: clocked edge waits for an error flag",
        GoesOn = "receiver: start-stop word goes on with an error flag",
        ArmedLine = "receiver: armed by the line",
        ArmedPins = "receiver: armed by kind 5",
        ArmedWrite = "receiver: armed by a write",
        ArmedHalf = "receiver: armed by a half",
        ReOff = "receiver: dropped by RE off",
        RxClockedInStartStop = "modes: clocked word received in start-stop form",
        RxStartStopInClocked = "modes: start-stop word received in clocked form",
        TxClockedInStartStop = "modes: clocked word sent on in start-stop form",
        TxStartStopInClocked = "modes: start-stop word sent on in clocked form",
        MarkInClocked = "modes: mark ends in clocked form",
        TailClockedWord = "modes: start-stop tail, then a clocked word",
        TailStartStopWord = "modes: clocked tail, then a start-stop word",
        EdgeAtBoundary = "edge bit set at TE on, at a boundary",
        EdgeOff = "edge bit set at TE on, off a boundary",
        NoEdgeAtBoundary = "edge bit clear at TE on, at a boundary",
        NoEdgeOff = "edge bit clear at TE on, off a boundary",
        BegunAtEdge = "edge bit set: word begun by a write at once",
        StartWaits = "word waits for a boundary",
        PinEdge = "external edge, clock pin changes",
        PhaseEdge = "external edge, clock pin as it was",
        PinNoEdge = "kind 5 external, clock pin changes, no edge",
        PinsSame = "kind 5, pins as they stand",
        PinsStopped = "kind 5 external, port stopped",
        PinsOff = "kind 5, module off",
        PinsInternal = "kind 5, internal clock",
        ExternalOn = "clock turned external",
        ExternalOff = "clock turned internal",
        Refused8 = "refused 8",
        Refused8Kind = "refused 8, kind not 1 to 9",
        Refused2Read = "refused 2, kind 1",
        Refused2Address = "refused 2, kind 2, address",
        Refused2Value = "refused 2, kind 2, value",
        Refused2Wait = "refused 2, kind 3",
        Refused2Line = "refused 2, kind 4",
        Refused2Clock = "refused 2, kind 5, clock",
        Refused2Pin = "refused 2, kind 5, line",
        Refused2Power = "refused 2, kind 6",
        Refused1Read = "refused 1, kind 1",
        Refused1Write = "refused 1, kind 2",
        Refused3 = "refused 3",
        Refused4Wait = "refused 4, kind 3",
        Refused4ByOne = "refused 4, kind 3, by one half",
        Refused4Far = "refused 4, kind 3, more than 60000 below the limit",
        Refused4Pins = "refused 4, kind 5",
        Limit = "limit met by kind 3",
        LimitFar = "limit met by kind 3 of more than 60000 halves",
        LimitPins = "limit met by kind 5",
        LimitNoEdge = "kind 5 at the limit, no edge to count",
        Kind = "refused 7, kind not 1 to 9",
        Refused2System = "refused 2, kind 8",
        Refused2Watch = "refused 2, kind 9",
        Refused10System = "refused 10, kind 8",
        Refused10Watch = "refused 10, kind 9",
        Refused10ByOne = "refused 10, by one cycle",
        Refused10Before4 = "refused 10, where 4 holds too",
        Refused10Off = "refused 10, module off",
        Refused10Unchosen = "refused 10, counting by the other clock",
        Refused4System = "refused 4, system cycles",
        Refused4Watch = "refused 4, watch cycles",
        Refused4System16 = "refused 4, system/16",
        Refused4System64 = "refused 4, system/64",
        Refused4CyclesByOne = "refused 4, by the last cycle",
        Refused4CyclesLater = "refused 4, cycles whose first half would pass",
        TotalLimit = "total met by cycles",
        TotalLimitNone = "no cycles at the greatest total",
        LimitCycles = "limit met by cycles",
        LimitUncounted = "cycles at the limit that count no half",
        Half1 = "cycles: halves, system",
        HalfWatch = "cycles: halves, watch",
        Half16 = "cycles: halves, system/16",
        Half64 = "cycles: halves, system/64",
        Ticks1 = "cycles: ticks and no half, system",
        TicksWatch = "cycles: ticks and no half, watch",
        Ticks16 = "cycles: ticks and no half, system/16",
        Ticks64 = "cycles: ticks and no half, system/64",
        NoTick16 = "cycles: no tick, system/16",
        NoTick64 = "cycles: no tick, system/64",
        OneCycle = "cycles: one, which counts a half",
        Several = "cycles: several halves",
        Unchosen = "cycles: of the other clock",
        CyclesOff = "cycles: module off",
        CyclesMode = "cycles: reset mode",
        CyclesStopped = "cycles: module on, no clock that runs it",
        CyclesExternal = "cycles: external clock",
        CyclesSub = "cycles: halves on the subclock alone",
        CyclesLong = "cycles: more than 60000",
        CyclesClear = "cycles: none counts a half, the edge bit cleared",
        CyclesClearLast = "cycles: a half, then one that clears the edge bit",
        CyclesEdge = "cycles: the last counts a half",
        CyclesNone = "cycles: 0, the edge bit kept",
        Longer = "count: longer than BRR gives, a half counted",
        Restart = "count: restarted by BRR",
        RestartSame = "count: restarted by BRR with the value it has",
        RestartStopped = "count: restarted by BRR, stopped",
        RestartExternal = "count: restarted by BRR, external clock",
        KeptTe = "count: kept, BRR written with TE on",
        KeptRe = "count: kept, BRR written with RE on",
        KeptBoth = "count: kept, BRR written with TE and RE on",
        KeptOff = "count: kept, BRR written with the module off",
        KeptMode = "count: kept, BRR written in reset mode",
        KeptChoice = "count: kept by another choice",
        KeptStop = "count: kept by a stop",
        KeptExternal = "count: kept by the clock turned external",
        KeptEdge = "count: kept by an external edge",
        KeptWait = "count: kept by kind 3 that counts nothing",
        FullWait = "count: full after a half of kind 3",
        CountModule = "count: 256 after a module reset",
        CountMode = "count: 256 after reset mode",
        TotalsKept = "totals kept by a reset",
        ResetModule = "reset: module off",
        ResetModuleInMode = "reset: module off, reset mode on before",
        ResetBoth = "reset: module off and reset mode in one",
        ResetMode = "reset: reset mode on",
        ResetModeOff = "reset: reset mode on, module off before",
        ResetHolding = "reset: a byte held",
        ResetEdge = "reset: edge bit set",
        ResetClocked = "reset: clocked edge due",
        SentWraps = "tally of words finished wraps",
        ReceivedWraps = "tally of words received wraps",
        InsideEdge = "kind 7 clears the edge bit",
        WaitEdge = "kind 3 that counts nothing clears the edge bit",
        WaitNone = "kind 3 of 0 keeps the edge bit",
        WaitLong = "kind 3 of more than 60000 halves",
        IgnoredOff = "write with the module off",
        IgnoredMode = "write in reset mode",
        HoldingReplaced = "unsent byte replaced",
        ReadClears = "RDR read clears RDRF",
        ReadMarks = "SSR read marks bits as seen",
        UnseenKept = "SSR write keeps unseen bits",
        ClearsTdre = "SSR write clears TDRE",
        ClearsRdrf = "SSR write clears RDRF",
        ClearsOverrun = "SSR write clears overrun",
        ClearsFraming = "SSR write clears framing",
        ClearsParity = "SSR write clears parity",
        ForcesTdre = "SSR write with TE off forces TDRE",
        BlockedGoes = "blocked word goes on",
        DueTogether = "sender and receiver due in one half",
        DueEdge = "start-stop word completes at a clocked edge",
        Subclock = "halves on the subclock alone",
        LevelLow = "transmit level 0",
        LevelHigh = "transmit level 1",
        LevelNone = "transmit level not driven",
        ClockFree = "clock pin not the port's",
        ClockFloating = "clock pin floating",
        ClockLow = "clock pin low",
        ClockHigh = "clock pin high",
        ClockOpen = "clock pin after clocked output, left free",
        Interrupt = "interrupt request",
    }
}

const SENDERS: usize = Sender::ALL.len();
const EVENTS: usize = Event::ALL.len();

#[derive(Clone)]
pub struct Coverage {
    senders: [[u64; EVENTS]; SENDERS],
    met: Vec<u64>,
    profiles: [u64; PROFILES.len()],
    breaks: [u64; BREAKS.len()],
    /// By choice and BRR: halves that cycles counted and after which the count
    /// began anew.
    counts: Box<[[u64; 256]; 4]>,
    /// By value: writes of BRR that restarted the count.
    restarts: [u64; 256],
    /// Accepted calls by their cause.
    causes: [u64; 9],
    /// Halves and edges counted.
    pub halves: u64,
}

impl Default for Coverage {
    fn default() -> Self {
        Self {
            senders: [[0; EVENTS]; SENDERS],
            met: vec![0; Met::ALL.len()],
            profiles: [0; PROFILES.len()],
            breaks: [0; BREAKS.len()],
            counts: Box::new([[0; 256]; 4]),
            restarts: [0; 256],
            causes: [0; 9],
            halves: 0,
        }
    }
}

/// Whether an event can meet a sender: these have no due half.
fn possible(sender: Sender, event: Event) -> bool {
    use Sender::{Blocked, ClockedData, ClockedTail, ClockedTailWord, Off};
    event != Event::Due
        || !matches!(
            sender,
            Off | Blocked | ClockedData | ClockedTail | ClockedTailWord
        )
}

fn sender(s: &State) -> Sender {
    match s.tx {
        None => Sender::Off,
        Some(Tx::Blocked { .. }) => Sender::Blocked,
        Some(Tx::Mark { .. }) => Sender::Mark,
        Some(Tx::Start { .. }) => Sender::Start,
        Some(Tx::Data { next: Some(_), .. }) => Sender::Data,
        Some(Tx::Data { next: None, .. }) => Sender::ClockedData,
        Some(Tx::Tail { loaded, next }) => match (loaded, next) {
            (Some(_), Some(_)) => Sender::TailWord,
            (None, Some(_)) => Sender::Tail,
            (Some(_), None) => Sender::ClockedTailWord,
            (None, None) => Sender::ClockedTail,
        },
    }
}

fn sender_due(s: &State) -> Option<u32> {
    match s.tx? {
        Tx::Blocked { .. } => None,
        Tx::Mark { next } | Tx::Start { next, .. } => Some(next),
        Tx::Data { next, .. } | Tx::Tail { next, .. } => next,
    }
}

impl Coverage {
    pub fn profile(&mut self, name: &str) {
        let found = PROFILES.iter().position(|(profile, _)| *profile == name);
        if let Some(place) = found {
            self.profiles[place] += 1;
        }
    }
    pub fn broken(&mut self, place: usize) {
        self.breaks[place] += 1;
    }

    fn met(&mut self, row: Met) {
        self.met[row as usize] += 1;
    }
    fn met_if(&mut self, condition: bool, row: Met) {
        self.met[row as usize] += u64::from(condition);
    }
    fn event(&mut self, s: &State, event: Event) {
        self.senders[sender(s) as usize][event as usize] += 1;
    }

    /// Count what one call reached. Of a wait of several halves only its
    /// ends are seen, so what happens inside is counted in single ones.
    pub fn note(&mut self, step: &Step) {
        self.shown(step);
        if let Answer::Refused(number) = step.answer {
            self.event(step.before, Event::Refused);
            return self.refused(step, number);
        }
        self.causes[step.shown.cause as usize] += 1;
        let counted = counted(step);
        self.halves += u64::from(counted);
        match step.call.kind {
            1 => self.read(step),
            2 => self.write(step),
            3 => self.wait(step, counted),
            4 => {
                self.event(step.before, Event::Line);
                self.met_if(armed(step), Met::ArmedLine);
            }
            5 => self.pins(step, counted),
            6 => self.power(step),
            8 | 9 => self.cycles(step, counted),
            _ => {
                self.event(step.before, Event::Inside);
                self.met_if(step.before.edge, Met::InsideEdge);
            }
        }
        self.count(step, counted);
        if counted == 1 {
            self.half(step);
        }
        let (before, after) = (step.before, step.after);
        self.met_if(
            before.transmitted == u64::MAX && after.transmitted == 0,
            Met::SentWraps,
        );
        self.met_if(
            before.received == u64::MAX && after.received == 0,
            Met::ReceivedWraps,
        );
    }

    fn shown(&mut self, step: &Step) {
        self.met(match step.shown.pins.level {
            0 => Met::LevelLow,
            1 => Met::LevelHigh,
            _ => Met::LevelNone,
        });
        self.met(match step.shown.pins.clock {
            _ if step.free => Met::ClockOpen,
            ClockDrive::Free => Met::ClockFree,
            ClockDrive::Floating => Met::ClockFloating,
            ClockDrive::Low => Met::ClockLow,
            ClockDrive::High => Met::ClockHigh,
        });
        self.met_if(step.shown.interrupt, Met::Interrupt);
    }

    fn refused(&mut self, step: &Step, number: u8) {
        let (s, c) = (step.before, step.call);
        self.met(match (number, c.kind) {
            (8, 1..=9) => Met::Refused8,
            (8, _) => Met::Refused8Kind,
            (2, 1) => Met::Refused2Read,
            (2, 2) if c.a > 0xffff => Met::Refused2Address,
            (2, 2) => Met::Refused2Value,
            (2, 3) => Met::Refused2Wait,
            (2, 4) => Met::Refused2Line,
            (2, 5) if c.a > 1 => Met::Refused2Clock,
            (2, 5) => Met::Refused2Pin,
            (2, 6) => Met::Refused2Power,
            (2, 8) => Met::Refused2System,
            (2, _) => Met::Refused2Watch,
            (1, 1) => Met::Refused1Read,
            (1, _) => Met::Refused1Write,
            (3, _) => Met::Refused3,
            (4, 5) => Met::Refused4Pins,
            (4, 3) => Met::Refused4Wait,
            (4, _) => {
                let rows = [
                    Met::Refused4System,
                    Met::Refused4Watch,
                    Met::Refused4System16,
                    Met::Refused4System64,
                ];
                rows[chosen(s)]
            }
            (10, 8) => Met::Refused10System,
            (10, _) => Met::Refused10Watch,
            _ => Met::Kind,
        });
        if let Some(clock) = cycles(c.kind) {
            self.refused_cycles(step, number, clock);
        }
        if (number, c.kind) == (4, 3) {
            let left = LIMIT - s.half;
            self.met_if(c.a == left + 1, Met::Refused4ByOne);
            self.met_if(left > 60_000, Met::Refused4Far);
        }
    }

    fn refused_cycles(&mut self, step: &Step, number: u8, clock: Clock) {
        let (s, n) = (step.before, u64::from(step.call.a));
        let left = u64::from(LIMIT.wrapping_sub(s.half));
        let past = |n| halves(s, clock, n) > left;
        if number == 4 {
            self.met_if(!past(n - 1), Met::Refused4CyclesByOne);
            self.met_if(left > 0, Met::Refused4CyclesLater);
        }
        if number == 10 {
            self.met_if(total(s, clock) + n == CYCLES + 1, Met::Refused10ByOne);
            self.met_if(past(n), Met::Refused10Before4);
            self.met_if(!s.module, Met::Refused10Off);
            self.met_if(counting(s) && choice(s).0 != clock, Met::Refused10Unchosen);
        }
    }

    fn cycles(&mut self, step: &Step, counted: u32) {
        let (s, after, n) = (step.before, step.after, step.call.a);
        let Some(clock) = cycles(step.call.kind) else {
            return;
        };
        self.event(s, Event::Cycles);
        let greatest = total(after, clock) == CYCLES;
        if n == 0 {
            self.met_if(greatest, Met::TotalLimitNone);
            return self.met_if(s.edge, Met::CyclesNone);
        }
        self.met_if(greatest, Met::TotalLimit);
        self.met_if(n > 60_000, Met::CyclesLong);
        self.met_if(s.edge && counted == 0, Met::CyclesClear);
        self.met_if(counted > 0 && !after.edge, Met::CyclesClearLast);
        self.met_if(counted > 0 && after.edge, Met::CyclesEdge);
        self.met_if(n == 1 && counted == 1, Met::OneCycle);
        self.met_if(counted > 1, Met::Several);
        let limit = after.half == LIMIT;
        self.met_if(counted > 0 && limit, Met::LimitCycles);
        self.met_if(counted == 0 && limit, Met::LimitUncounted);
        if !counting(s) {
            return self.met(match s {
                State { module: false, .. } => Met::CyclesOff,
                State {
                    reset_mode: true, ..
                } => Met::CyclesMode,
                _ if running(s) => Met::CyclesExternal,
                _ => Met::CyclesStopped,
            });
        }
        if choice(s).0 != clock {
            return self.met(Met::Unchosen);
        }
        let chosen = chosen(s);
        if counted > 0 {
            self.met([Met::Half1, Met::HalfWatch, Met::Half16, Met::Half64][chosen]);
            self.met_if(!s.main, Met::CyclesSub);
            self.met_if(s.remaining > u16::from(s.brr) + 1, Met::Longer);
            self.counts[chosen][usize::from(s.brr)] += 1;
        } else if after.remaining < s.remaining {
            self.met([Met::Ticks1, Met::TicksWatch, Met::Ticks16, Met::Ticks64][chosen]);
        } else {
            self.met_if(chosen == 2, Met::NoTick16);
            self.met_if(chosen == 3, Met::NoTick64);
        }
    }

    /// What a write, a wait, the pins and power do to the count.
    fn count(&mut self, step: &Step, counted: u32) {
        let (s, after) = (step.before, step.after);
        let c = step.call;
        let begun = s.remaining != u16::from(s.brr) + 1;
        match c.kind {
            2 if c.a == BRR => self.restart(step),
            2 if begun && counting(s) => {
                let changed = (s.smr ^ after.smr) & 3 != 0;
                self.met_if(changed && counting(after), Met::KeptChoice);
                self.met_if(after.scr & 2 != 0, Met::KeptExternal);
            }
            3 => {
                self.met_if(begun && counted > 0, Met::FullWait);
                self.met_if(begun && c.a > 0 && counted == 0, Met::KeptWait);
            }
            5 => self.met_if(begun && counted > 0, Met::KeptEdge),
            6 if !resets(s, c.a) => {
                self.met_if(begun && counting(s) && !counting(after), Met::KeptStop);
            }
            6 => {
                let module = s.module && !after.module;
                let begun = s.remaining != 256;
                self.met_if(begun && module, Met::CountModule);
                self.met_if(begun && !module, Met::CountMode);
                self.met_if(s.system > 0 && s.watch > 0, Met::TotalsKept);
            }
            _ => {}
        }
    }

    fn restart(&mut self, step: &Step) {
        let (s, value) = (step.before, step.call.b as u8);
        if s.remaining == u16::from(value) + 1 {
            return;
        }
        if !s.module || s.reset_mode {
            return self.met(if s.module {
                Met::KeptMode
            } else {
                Met::KeptOff
            });
        }
        self.met(match s.scr & 0x30 {
            0x20 => Met::KeptTe,
            0x10 => Met::KeptRe,
            0x30 => Met::KeptBoth,
            _ => Met::Restart,
        });
        if s.scr & 0x30 == 0 {
            self.restarts[usize::from(value)] += 1;
            self.met_if(value == s.brr, Met::RestartSame);
            self.met_if(!running(s), Met::RestartStopped);
            self.met_if(running(s) && !counting(s), Met::RestartExternal);
        }
    }

    fn read(&mut self, step: &Step) {
        let (before, after) = (step.before, step.after);
        self.event(before, Event::Read);
        self.met_if(
            step.call.a == RDR && before.ssr & !after.ssr & 0x40 != 0,
            Met::ReadClears,
        );
        self.met_if(
            step.call.a == SSR && before.seen != after.seen,
            Met::ReadMarks,
        );
    }

    fn wait(&mut self, step: &Step, counted: u32) {
        let s = step.before;
        let n = step.call.a;
        let limit = step.after.half == LIMIT;
        self.met_if(counted > 0 && limit, Met::Limit);
        self.met_if(counted > 60_000 && limit, Met::LimitFar);
        self.met_if(counted > 60_000, Met::WaitLong);
        self.met_if(counted > 0 && !s.main, Met::Subclock);
        self.met_if(s.edge && n > 0 && !counting(s), Met::WaitEdge);
        self.met_if(s.edge && n == 0, Met::WaitNone);
    }

    fn write(&mut self, step: &Step) {
        let (s, after) = (step.before, step.after);
        let (address, value) = (step.call.a, step.call.b as u8);
        if !s.module || s.reset_mode {
            self.event(s, Event::Ignored);
            return self.met(if s.module {
                Met::IgnoredMode
            } else {
                Met::IgnoredOff
            });
        }
        let te = s.scr & 0x20 != 0;
        let f = format(s.smr, s.semr);
        match address {
            SCR => {
                let on = value & 0x20 != 0;
                self.event(
                    s,
                    match (te, on) {
                        (_, false) => Event::TeOff,
                        (false, true) => Event::TeOn,
                        (true, true) => Event::TeStays,
                    },
                );
                if !te && on && !f.synchronous {
                    let boundary = s.half.is_multiple_of(f.half_bit);
                    self.met(match (s.edge, boundary) {
                        (true, true) => Met::EdgeAtBoundary,
                        (true, false) => Met::EdgeOff,
                        (false, true) => Met::NoEdgeAtBoundary,
                        (false, false) => Met::NoEdgeOff,
                    });
                }
                self.met_if(s.rx.is_some() && value & 0x10 == 0, Met::ReOff);
                self.met_if(s.scr & 2 == 0 && value & 2 != 0, Met::ExternalOn);
                self.met_if(s.scr & 2 != 0 && value & 2 == 0, Met::ExternalOff);
            }
            TDR => {
                self.event(s, Event::Tdr);
                self.met_if(te && s.holding.is_some(), Met::HoldingReplaced);
            }
            SSR => self.status(step, te),
            SMR if (s.smr ^ value) & 0x80 != 0 => self.event(s, Event::Mode),
            _ => self.event(s, Event::Write),
        }
        // A write may load and begin a word at once.
        let data = |s: &State| matches!(s.tx, Some(Tx::Data { next: Some(_), .. }));
        self.met_if(s.tx.is_none() && data(after), Met::BegunAtEdge);
        self.met_if(
            s.tx.is_none() && matches!(after.tx, Some(Tx::Start { .. })),
            Met::StartWaits,
        );
        let blocked = |s: &State| matches!(s.tx, Some(Tx::Blocked { .. }));
        self.met_if(
            blocked(s) && matches!(after.tx, Some(Tx::Data { .. })),
            Met::BlockedGoes,
        );
        self.met_if(armed(step), Met::ArmedWrite);
    }

    fn status(&mut self, step: &Step, te: bool) {
        let (s, value) = (step.before, step.call.b as u8);
        let left = s.ssr & !(s.seen & !value & 0xf8);
        let loads = te && left & 0x80 == 0 && s.holding.is_none();
        self.event(s, if loads { Event::SsrLoads } else { Event::Ssr });
        let cleared = s.ssr & !left;
        for (flag, row) in [
            (0x80, Met::ClearsTdre),
            (0x40, Met::ClearsRdrf),
            (0x20, Met::ClearsOverrun),
            (0x10, Met::ClearsFraming),
            (8, Met::ClearsParity),
        ] {
            self.met_if(cleared & flag != 0, row);
        }
        self.met_if(s.ssr & !s.seen & !value & 0xf8 != 0, Met::UnseenKept);
        self.met_if(!te && left & 0x80 == 0, Met::ForcesTdre);
    }

    fn pins(&mut self, step: &Step, counted: u32) {
        let (s, clock) = (step.before, step.call.a != 0);
        let changes = clock != s.input_clock;
        let same = !changes && (step.call.b != 0) == s.input;
        let external = s.scr & 2 != 0;
        let stopped = !s.module || s.reset_mode || !(s.main || s.sub && s.smr & 3 == 1);
        self.met_if(counted > 0 && changes, Met::PinEdge);
        self.met_if(counted > 0 && !changes, Met::PhaseEdge);
        self.met_if(same, Met::PinsSame);
        if !same {
            self.met_if(!s.module, Met::PinsOff);
            self.met_if(external && stopped, Met::PinsStopped);
            self.met_if(!external && !stopped, Met::PinsInternal);
            self.met_if(
                external && !stopped && changes && counted == 0,
                Met::PinNoEdge,
            );
        }
        let limit = step.after.half == LIMIT;
        self.met_if(counted > 0 && limit, Met::LimitPins);
        self.met_if(
            counted == 0 && limit && external && !stopped,
            Met::LimitNoEdge,
        );
        self.met_if(armed(step), Met::ArmedPins);
    }

    fn power(&mut self, step: &Step) {
        let (s, bits) = (step.before, step.call.a);
        if !resets(s, bits) {
            return self.event(s, Event::Power);
        }
        let module = s.module && bits & 1 == 0;
        let mode = !s.reset_mode && bits & 8 != 0;
        self.event(
            s,
            if module {
                Event::Module
            } else {
                Event::ResetMode
            },
        );
        self.met(match (module, mode) {
            (true, true) => Met::ResetBoth,
            (true, false) if s.reset_mode => Met::ResetModuleInMode,
            (true, false) => Met::ResetModule,
            (false, _) if s.module => Met::ResetMode,
            (false, _) => Met::ResetModeOff,
        });
        self.met_if(s.holding.is_some(), Met::ResetHolding);
        self.met_if(s.edge, Met::ResetEdge);
        self.met_if(s.sync_next.is_some(), Met::ResetClocked);
    }

    /// One half or one external edge.
    fn half(&mut self, step: &Step) {
        let (s, after) = (step.before, step.after);
        let half = after.half;
        let sent = sender_due(s) == Some(half);
        self.event(s, if sent { Event::Due } else { Event::Half });
        // A clocked edge: each one on the external clock, else where due.
        let external = s.scr & 2 != 0;
        let edge = match external {
            true => Some(after.high),
            false => (s.sync_next == Some(half)).then_some(!s.sck),
        };
        if let Some(rises) = edge {
            self.event(s, if rises { Event::Rise } else { Event::Fall });
        }
        let clocked_now = s.smr & 0x80 != 0;
        // Modes of the sender: a word that ends, or a mark.
        let finished = after.transmitted != s.transmitted;
        if let Some(Tx::Data {
            character: Character { format, .. },
            ..
        }) = s.tx
        {
            let moved = after.tx != s.tx;
            self.met_if(
                moved && format.synchronous && !clocked_now,
                Met::TxClockedInStartStop,
            );
            self.met_if(
                moved && !format.synchronous && clocked_now,
                Met::TxStartStopInClocked,
            );
        }
        if let Some(Tx::Tail {
            loaded: Some(word),
            next,
        }) = s.tx
        {
            let clocked = word.format.synchronous;
            self.met_if(finished && next.is_some() && clocked, Met::TailClockedWord);
            self.met_if(
                finished && next.is_none() && !clocked,
                Met::TailStartStopWord,
            );
        }
        self.met_if(
            sent && matches!(s.tx, Some(Tx::Mark { .. })) && clocked_now,
            Met::MarkInClocked,
        );
        self.receiver(step, sent, edge);
        self.met_if(armed(step) && step.call.kind == 3, Met::ArmedHalf);
    }

    fn receiver(&mut self, step: &Step, sent: bool, edge: Option<bool>) {
        let (s, after) = (step.before, step.after);
        let clocked_now = s.smr & 0x80 != 0;
        // Kind 5 moves the line before the edge.
        let high = after.input ^ (s.spcr & 1 != 0);
        let faulty = s.ssr & 0x38 != 0;
        match s.rx {
            Some(rx) if rx.next == Some(after.half) => {
                self.met_if(sent, Met::DueTogether);
                self.met_if(faulty, Met::GoesOn);
                self.sampled(step, rx, high, clocked_now);
                let last = rx.format.data as i8 + i8::from(rx.format.parity);
                if rx.position == last {
                    self.met_if(clocked_now, Met::RxStartStopInClocked);
                    self.met_if(edge.is_some(), Met::DueEdge);
                }
            }
            Some(rx) if !rx.format.synchronous => {}
            clocked if edge == Some(true) && s.scr & 0x10 != 0 => {
                if faulty {
                    self.met_if(clocked.is_some() || clocked_now, Met::ClockedWaits);
                    return;
                }
                let Some(rx) = clocked else {
                    return self.met_if(clocked_now && after.rx.is_some(), Met::ClockedFirst);
                };
                if rx.position < 7 {
                    return self.met(Met::ClockedBit);
                }
                self.met_if(!clocked_now, Met::RxClockedInStartStop);
                self.met(match s.ssr & 0x40 {
                    0 if rx.error != 0 => Met::ClockedError,
                    0 => Met::ClockedComplete,
                    _ => Met::ClockedOverrun,
                });
            }
            _ => {}
        }
    }

    /// A start-stop word at its due half.
    fn sampled(&mut self, step: &Step, rx: Rx, high: bool, clocked_now: bool) {
        let data = rx.format.data as i8;
        self.met(match rx.position {
            -2 if high => Met::FallMark,
            -2 if clocked_now => Met::FallClocked,
            -2 => Met::FallTaken,
            -1 if high => Met::StartMark,
            -1 => Met::StartTaken,
            n if n < data && high => Met::DataOne,
            n if n < data => Met::DataZero,
            n if n == data && rx.format.parity => {
                if high == (rx.parity ^ rx.format.odd) {
                    Met::ParityOk
                } else {
                    Met::ParityFault
                }
            }
            _ => match (step.before.ssr & 0x40 != 0, rx.error != 0, high) {
                (false, false, true) => Met::Complete,
                (false, false, false) => Met::Framing,
                (false, true, true) => Met::ParityWord,
                (false, true, false) => Met::BothFaults,
                (true, false, true) => Met::Overrun,
                (true, _, _) => Met::OverrunFault,
            },
        });
    }

    /// What must be there and its count.
    fn rows(&self) -> Vec<(String, u64)> {
        let mut rows = Vec::new();
        for s in Sender::ALL {
            for e in Event::ALL {
                if possible(*s, *e) {
                    let name = format!("{} / {}", s.text(), e.text());
                    rows.push((name, self.senders[*s as usize][*e as usize]));
                }
            }
        }
        for row in Met::ALL {
            rows.push((row.text().into(), self.met[*row as usize]));
        }
        let choices = ["system", "watch", "system/16", "system/64"];
        for (choice, counts) in choices.iter().zip(self.counts.iter()) {
            let name = format!("halves by cycles of {choice}, the fewest of any BRR");
            rows.push((name, fewest(counts)));
        }
        let name = "count restarted by BRR, the fewest of any value";
        rows.push((name.into(), fewest(&self.restarts)));
        for (cause, count) in self.causes.iter().enumerate() {
            rows.push((format!("cause {cause}"), *count));
        }
        for ((name, _), count) in PROFILES.iter().zip(self.profiles) {
            rows.push((format!("profile: {name}"), count));
        }
        for ((name, _), count) in BREAKS.iter().zip(self.breaks) {
            rows.push((format!("field test fails: {name}"), count));
        }
        rows
    }

    /// How many counts there are, and the names of those that are zero.
    pub fn missing(&self) -> (usize, Vec<String>) {
        let rows = self.rows();
        let zero = rows.iter().filter(|(_, count)| *count == 0);
        let names = zero.map(|(name, _)| name.clone()).collect();
        (rows.len(), names)
    }

    pub fn print(&self) {
        let width = |e: &Event| e.text().len().max(8);
        print!("{:20}", "sender / event");
        for e in Event::ALL {
            print!(" {:>1$}", e.text(), width(e));
        }
        println!();
        for s in Sender::ALL {
            print!("{:20}", s.text());
            for e in Event::ALL {
                match possible(*s, *e) {
                    true => print!(" {:>1$}", self.senders[*s as usize][*e as usize], width(e)),
                    false => print!(" {:>1$}", "-", width(e)),
                }
            }
            println!();
        }
        let cells = Sender::ALL.len() * Event::ALL.len();
        let impossible = Sender::ALL
            .iter()
            .flat_map(|s| Event::ALL.iter().map(move |e| possible(*s, *e)))
            .filter(|possible| !possible)
            .count();
        for (name, count) in self.rows().into_iter().skip(cells - impossible) {
            println!("{count:>12} {name}");
        }
    }
}

fn fewest(counts: &[u64; 256]) -> u64 {
    counts.iter().copied().min().unwrap_or(0)
}

/// The number of the clock choice.
fn chosen(s: &State) -> usize {
    usize::from(s.smr & 3)
}

/// A word waits at -2 that did not before.
fn armed(step: &Step) -> bool {
    let waits = |s: &State| s.rx.is_some_and(|rx| rx.position == -2);
    waits(step.after) && !waits(step.before)
}
