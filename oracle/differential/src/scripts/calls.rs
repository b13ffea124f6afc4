//! A player written from documents 01 and 02 over a port's direct calls, and
//! wrong ones made from it. It shares no code with the oracle's player, so that it
//! can stand in for the proved one, and the wrong ones prove that the runner
//! can fail.
use super::player::{Played, Player};
use crate::{
    layout::{encode, read, within},
    port::Port,
};
use model::{Answer, Command};

macro_rules! wrong {
    ($($name:ident = $text:literal,)*) => {
        /// Mistakes that a player can make.
        #[derive(Clone, Copy, Debug, PartialEq, Eq)]
        pub enum Wrong { $($name),* }
        impl Wrong {
            pub const ALL: &'static [Self] = &[$(Self::$name),*];
            pub fn text(self) -> &'static str {
                match self { $(Self::$name => $text),* }
            }
        }
    };
}

wrong! {
    FullAtSix = "log: full with six bytes left",
    FullAtFour = "log: a record is cut where five bytes are left",
    FullLate = "log: 9 only after the command is read",
    FullAtEnd = "log: 9 also where no command is left",
    Late = "log: records one byte late",
    Touched = "log: a byte touched at a refusal",
    Cleared = "log: the rest is cleared",
    Lost = "log: cleared at a refusal",
    Wrapped = "log: records beyond 32,768 bytes written at the beginning",
    WrittenRecords = "written: records, not bytes",
    WrittenRefused = "written: with the refused command's record",
    AnswerOfWrite = "record: the value written as answer",
    AnswerMissing = "record: no value read",
    SsrBefore = "record: SSR of before the command",
    SsrRead = "record: SSR by a read, which marks bits as seen",
    LevelBefore = "record: transmit level of before the command",
    LevelZero = "record: 0 for a line that is not driven",
    InterruptBefore = "record: interrupt request of before the command",
    OffsetNext = "offset: one more",
    OffsetEnd = "offset: behind the command for 1, 3 and 4",
    OffsetByte = "offset: its low byte",
    OffsetLow = "offset: its low 13 bits",
    OffsetAccepted = "offset: the script's length where it is accepted",
    SixAsFive = "6 given as 5",
    FiveAsSix = "5 given as 6",
    LastByte = "the broken byte as the script's last gives 5",
    NotShortest = "a number that is not shortest is taken",
    FifthByte = "a fifth byte above 15 is taken",
    SixBytes = "a number of six bytes is taken",
    KindZero = "kind 0 taken as 7",
    KindTen = "kind 10 taken as 7",
    KindNine = "kind 9 gives 7",
    KindLow = "kind by its low seven bits",
    RangeLate = "2 only when all operands are read",
    RangeAddress = "an address above 65,535 gives 1",
    AddressFirst = "1 before 2 of the value",
    IrcrFirst = "3 before 2 of the value",
    ValueLow = "a value above 255 by its low byte",
    WaitLow = "a wait by its low 14 bits",
    CyclesLow = "cycles by their low 14 bits",
    CyclesSwapped = "kinds 8 and 9 swapped",
    CyclesOne = "cycles: one at most",
    CyclesWait = "cycles taken as a wait",
    CyclesLogged = "cycles are only logged",
    WatchIsEight = "record: kind 8 for kind 9",
    CyclesAnswer = "record: the cycles' low byte as answer",
    LimitPassed = "4 only when the halves before the limit have passed",
    LimitPins = "4 not given for the clock pin",
    LimitCycles = "4 of cycles only when the halves before the limit have passed",
    TotalAsLimit = "10 given as 4",
    TotalAsNine = "10 given as 9",
    TotalBeforeRange = "10 before 2",
    TotalPassed = "10 only when the cycles before the limit have passed",
    OffsetTotal = "offset: behind the command for 10",
    EightEmpty = "8 not tested for an empty script",
    EightLate = "8 after 9",
    EightTouches = "8 changes the state",
    StateAtRefusal = "a refusal lets time pass",
    StateOfStart = "a refusal gives the state of the script's start",
    FirstOnly = "the first command runs, the rest is only logged",
    FirstKept = "the first command runs, the rest is logged and undone",
    LastLogged = "the last command is only logged",
    Stops256 = "the run ends after 256 commands",
    Stops4096 = "the run ends after 4,096 commands",
    EmptyShort = "an empty script gives 5",
    Unused = "a place of the array that is not in use is not 0",
    LengthHalf = "length: the half count of the last state",
    LengthModule = "length: half counts at the module's resets, not at reset mode's",
    LengthFall = "length: a reset takes off what was counted",
    LengthPins = "length: without edges of the clock pin",
    LengthCycles = "length: without halves of cycles",
    LengthWatch = "length: without halves of watch cycles",
    LengthOfCycles = "length: cycles in place of their halves",
    LengthStanding = "length: a wait's n while the clock stands",
    LengthRefused = "length: 0 at a refusal",
    LengthStart = "length: from the first port's half count on",
    LengthLow = "length: its low byte",
    CauseMissing = "record: no cause",
    CauseKept = "record: the last cause stays where no word is completed",
    CauseFirst = "record: the first word's cause in a wait",
    CauseTaken = "record: overrun's causes as the others",
    CauseSwapped = "record: parity and framing swapped in the cause",
    CauseOfFlags = "record: the cause by SSR's error flags",
}

pub struct CallsPlayer<P> {
    port: P,
    wrong: Option<Wrong>,
}

impl<P: Port> CallsPlayer<P> {
    pub fn new(port: P) -> Self {
        Self { port, wrong: None }
    }
    pub fn wrong(port: P, wrong: Wrong) -> Self {
        Self {
            port,
            wrong: Some(wrong),
        }
    }
    fn is(&self, wrong: Wrong) -> bool {
        self.wrong == Some(wrong)
    }

    /// A number at the front of some bytes, and what is behind it.
    fn number<'a>(&self, mut bytes: &'a [u8]) -> Result<(u32, &'a [u8]), u8> {
        let (five, six) = match self.wrong {
            Some(Wrong::SixAsFive) => (5, 5),
            Some(Wrong::FiveAsSix) => (6, 6),
            _ => (5, 6),
        };
        let mut value = 0_u64;
        let mut group = 0;
        loop {
            let Some((byte, behind)) = bytes.split_first() else {
                return Err(five);
            };
            bytes = behind;
            value += u64::from(byte & 0x7f) << (7 * group);
            let more = byte & 0x80 != 0;
            let empty = group > 0 && *byte == 0 && !self.is(Wrong::NotShortest);
            let long = group == 4 && more && !self.is(Wrong::SixBytes);
            let large = value > u32::MAX.into() && !self.is(Wrong::FifthByte);
            if empty || long || large || group > 5 {
                let last = bytes.is_empty() && self.is(Wrong::LastByte);
                return Err(if last { 5 } else { six });
            }
            if !more {
                return Ok((value as u32, bytes));
            }
            group += 1;
        }
    }

    /// The command at the front, and how many bytes are behind it.
    fn command(&self, bytes: &[u8]) -> Result<(Command, usize), u8> {
        let (mut kind, mut bytes) = self.number(bytes)?;
        kind = match self.wrong {
            Some(Wrong::KindZero) if kind == 0 => 7,
            Some(Wrong::KindTen) if kind == 10 => 7,
            Some(Wrong::KindNine) if kind == 9 => 0,
            Some(Wrong::KindLow) => kind & 0x7f,
            _ => kind,
        };
        let (first, second) = match kind {
            1 | 3 | 8 | 9 => (Some(0xffff), None),
            2 => (Some(0xffff), Some(0xff)),
            4 => (Some(1), None),
            5 => (Some(1), Some(1)),
            6 => (Some(0xf), None),
            7 => (None, None),
            _ => return Err(7),
        };
        let mut c = Command { kind, a: 0, b: 0 };
        let mut above = false;
        for (most, operand) in [(first, &mut c.a), (second, &mut c.b)] {
            let Some(most) = most else { continue };
            (*operand, bytes) = self.number(bytes)?;
            if *operand > most {
                if !self.lenient(kind, most, operand) {
                    above = true;
                }
                if above && !self.is(Wrong::RangeLate) {
                    return Err(self.above(kind, most));
                }
            }
        }
        if above {
            return Err(2);
        }
        match self.wrong {
            Some(Wrong::WaitLow) if kind == 3 => c.a &= 0x3fff,
            Some(Wrong::CyclesLow) if kind > 7 => c.a &= 0x3fff,
            _ => {}
        }
        Ok((c, bytes.len()))
    }
    /// Whether an operand above its range goes on, for the mistakes that
    /// leave it to later.
    fn lenient(&self, kind: u32, most: u32, operand: &mut u32) -> bool {
        if (kind, most) != (2, 0xff) {
            return false;
        }
        match self.wrong {
            Some(Wrong::ValueLow) => *operand &= 0xff,
            // The call still refuses by 2 where 1 and 3 do not hold.
            Some(Wrong::AddressFirst | Wrong::IrcrFirst) => {}
            _ => return false,
        }
        true
    }
    fn above(&self, kind: u32, most: u32) -> u8 {
        match kind {
            1 | 2 if most == 0xffff && self.is(Wrong::RangeAddress) => 1,
            8 | 9 if self.is(Wrong::TotalBeforeRange) && self.left(kind) < 0x1_0000 => 10,
            _ => 2,
        }
    }

    /// Cycles up to the greatest total of a kind's clock.
    fn left(&self, kind: u32) -> u64 {
        let total = self.port.state().map_or(0, |s| match kind {
            8 => s.system,
            _ => s.watch,
        });
        281_474_976_710_656 - total
    }

    /// The command as it is called, with the mistakes of cycles.
    fn turned(&self, c: Command) -> Command {
        match self.wrong {
            _ if c.kind < 8 => c,
            Some(Wrong::CyclesSwapped) => Command {
                kind: 17 - c.kind,
                ..c
            },
            Some(Wrong::CyclesOne) => Command { a: c.a.min(1), ..c },
            Some(Wrong::CyclesWait) => Command { kind: 3, ..c },
            Some(Wrong::CyclesLogged) => Command { a: 0, ..c },
            _ => c,
        }
    }

    /// The call, with the mistakes that are made there.
    fn call(&mut self, c: Command) -> Result<Answer, String> {
        let known = matches!(c.a, 0xff91 | 0xff98..=0xff9d | 0xffa6 | 0xffa7);
        let refused = match self.wrong {
            Some(Wrong::AddressFirst) if c.kind == 2 && !known => Some(1),
            Some(Wrong::IrcrFirst) if c.kind == 2 && c.a == 0xffa7 && c.b & 0x80 != 0 => Some(3),
            _ => None,
        };
        if let Some(number) = refused {
            return Ok(Answer::Refused(number));
        }
        let answer = self.port.call(self.turned(c))?;
        match self.wrong {
            Some(Wrong::LimitCycles) if answer == Answer::Refused(4) && c.kind > 7 => {
                let one = Command { a: 1, ..c };
                while self.port.call(one)? == Answer::Done(0) {}
                Ok(answer)
            }
            Some(Wrong::TotalPassed) if answer == Answer::Refused(10) => {
                let left = self.left(c.kind) as u32;
                self.port.call(Command { a: left, ..c })?;
                Ok(answer)
            }
            Some(Wrong::TotalAsLimit) if answer == Answer::Refused(10) => Ok(Answer::Refused(4)),
            Some(Wrong::TotalAsNine) if answer == Answer::Refused(10) => Ok(Answer::Refused(9)),
            Some(Wrong::LimitPins) if (c.kind, answer) == (5, Answer::Refused(4)) => {
                Ok(Answer::Done(0))
            }
            Some(Wrong::LimitPassed) if answer == Answer::Refused(4) && c.kind == 3 => {
                let left = 4_000_000_000 - self.port.state()?.half;
                self.port.call(Command { a: left, ..c })?;
                Ok(answer)
            }
            _ => Ok(answer),
        }
    }

    /// The call and its cause, with the mistake of the first word's.
    fn told(&mut self, c: Command) -> Result<(Answer, u64), String> {
        let s = self.port.state()?;
        if !self.is(Wrong::CauseFirst) || c.kind != 3 || s.half > 3_999_000_000 {
            let answer = self.call(c)?;
            return Ok((answer, self.port.cause()));
        }
        let mut first = 0;
        for _ in 0..c.a {
            self.call(Command { a: 1, ..c })?;
            if first == 0 {
                first = self.port.cause();
            }
        }
        Ok((Answer::Done(0), first))
    }

    /// SSR, transmit level and interrupt request, as a record has them.
    fn shown(&mut self) -> Result<[u8; 3], String> {
        let ssr = self.port.state()?.ssr;
        let level = self.port.pins()?.level;
        Ok([ssr, level, self.port.interrupt()?.into()])
    }

    /// From the first command on; the port is set and passes its test.
    fn commands(&mut self, script: &[u8], log: &mut [u8]) -> Result<Played, String> {
        let mut at = 0;
        let mut written = 0;
        let mut count = 0;
        let mut cause_before = 0;
        let mut length = match self.wrong {
            Some(Wrong::LengthStart) => self.port.state()?.half.into(),
            _ => 0,
        };
        if script.is_empty() && self.is(Wrong::EmptyShort) {
            return Ok(refused(5, 0, 0, 0));
        }
        while at < script.len() {
            let left = log.len() - written;
            let full = match self.wrong {
                Some(Wrong::FullAtSix) => left < 7,
                Some(Wrong::FullAtFour) => left < 5,
                _ => left < 6,
            };
            if full && !self.is(Wrong::FullLate) {
                return Ok(refused(9, at, written, length));
            }
            let (c, behind) = match self.command(&script[at..]) {
                Ok(read) => read,
                Err(number) => return Ok(refused(number, at, written, length)),
            };
            if full {
                return Ok(refused(9, at, written, length));
            }
            let first = self.port.state()?;
            let before = self.shown()?;
            let logged_only =
                self.is(Wrong::FirstOnly) && at > 0 || self.is(Wrong::LastLogged) && behind == 0;
            let (answer, cause) = if logged_only {
                (Answer::Done(0), 0)
            } else {
                self.told(c)?
            };
            let value = match answer {
                Answer::Done(value) => value,
                Answer::Refused(number) => {
                    let ends =
                        self.is(Wrong::OffsetEnd) || self.is(Wrong::OffsetTotal) && number == 10;
                    let offset = if ends { script.len() - behind } else { at };
                    return Ok(refused(number, offset, written, length));
                }
            };
            cause_before = match cause {
                0 if self.is(Wrong::CauseKept) => cause_before,
                _ => cause,
            };
            self.record(c, (value, cause_before), before, log, written)?;
            length = self.longer(length, c, first.half)?;
            if self.is(Wrong::FirstKept) && at > 0 {
                self.port.set(&first);
            }
            written = (written + 6).min(log.len());
            at = script.len() - behind;
            count += 1;
            if self.is(Wrong::Stops256) && count == 256
                || self.is(Wrong::Stops4096) && count == 4096
            {
                break;
            }
        }
        if self.is(Wrong::FullAtEnd) && at > 0 && log.len() - written < 6 {
            return Ok(refused(9, at, written, length));
        }
        if self.is(Wrong::Cleared) {
            log[written..].fill(0);
        }
        let accepted = self.is(Wrong::OffsetAccepted);
        Ok(Played {
            number: 0,
            offset: if accepted { script.len() as u64 } else { 0 },
            written: written as u64,
            length,
        })
    }

    /// The length after one more command: the half counts before and after it
    /// tell how many edges it counted, but for a power command, which counts
    /// none and may put it to 0.
    fn longer(&self, length: u64, c: Command, before: u32) -> Result<u64, String> {
        let after: u64 = self.port.state()?.half.into();
        let moved = after.wrapping_sub(before.into());
        let counted = match self.wrong {
            Some(Wrong::LengthHalf) => return Ok(after),
            // What reset mode takes is not added up.
            Some(Wrong::LengthModule) if c.kind == 6 && c.a & 9 == 9 => moved,
            Some(Wrong::LengthFall) => moved,
            Some(Wrong::LengthPins) if c.kind == 5 => 0,
            Some(Wrong::LengthStanding) if c.kind == 3 => c.a.into(),
            Some(Wrong::LengthCycles) if c.kind > 7 => 0,
            Some(Wrong::LengthWatch) if c.kind == 9 => 0,
            Some(Wrong::LengthOfCycles) if c.kind > 7 => c.a.into(),
            _ if c.kind == 6 => 0,
            _ => moved,
        };
        Ok(length.wrapping_add(counted))
    }

    fn record(
        &mut self,
        c: Command,
        (value, cause): (u8, u64),
        before: [u8; 3],
        log: &mut [u8],
        written: usize,
    ) -> Result<(), String> {
        if self.is(Wrong::SsrRead) {
            self.port.call(Command {
                kind: 1,
                a: 0xff9c,
                b: 0,
            })?;
        }
        let [mut ssr, mut level, mut interrupt] = self.shown()?;
        let mut answer = value;
        match self.wrong {
            Some(Wrong::AnswerOfWrite) if c.kind == 2 => answer = c.b as u8,
            Some(Wrong::AnswerMissing) => answer = 0,
            Some(Wrong::CyclesAnswer) if c.kind > 7 => answer = c.a as u8,
            Some(Wrong::SsrBefore) => ssr = before[0],
            Some(Wrong::LevelBefore) => level = before[1],
            Some(Wrong::LevelZero) => level %= 2,
            Some(Wrong::InterruptBefore) => interrupt = before[2],
            _ => {}
        }
        let from = match self.wrong {
            Some(Wrong::Late) => written + 1,
            Some(Wrong::Wrapped) => written % 32_768,
            _ => written,
        };
        let kind = match self.wrong {
            Some(Wrong::WatchIsEight) if c.kind == 9 => 8,
            _ => c.kind as u8,
        };
        let cause = match self.wrong {
            Some(Wrong::CauseMissing) => 0,
            Some(Wrong::CauseTaken) if cause > 4 => cause - 4,
            Some(Wrong::CauseSwapped) => match cause {
                2 | 6 => cause + 1,
                3 | 7 => cause - 1,
                _ => cause,
            },
            Some(Wrong::CauseOfFlags) if cause != 0 => {
                let errors = u64::from(ssr >> 3 & 1) + u64::from(ssr >> 3 & 2);
                errors + if cause > 4 { 5 } else { 1 }
            }
            _ => cause,
        };
        let bytes = [kind, answer, ssr, level, interrupt, cause as u8];
        for (place, byte) in log[from..].iter_mut().zip(bytes) {
            *place = byte;
        }
        Ok(())
    }

    /// The mistakes that are made when a run is over.
    fn end(&mut self, played: &mut Played, log: &mut [u8]) -> Result<(), String> {
        match self.wrong {
            Some(Wrong::WrittenRecords) => played.written /= 6,
            Some(Wrong::OffsetByte) => played.offset &= 0xff,
            Some(Wrong::OffsetLow) => played.offset &= 0x1fff,
            Some(Wrong::LengthLow) => played.length &= 0xff,
            _ => {}
        }
        if played.number == 0 {
            return Ok(());
        }
        match self.wrong {
            Some(Wrong::Touched) => {
                if let Some(place) = log.get_mut(played.written as usize) {
                    *place = 0;
                }
            }
            Some(Wrong::Lost) => log.fill(0),
            Some(Wrong::WrittenRefused) => played.written += 6,
            Some(Wrong::OffsetNext) => played.offset += 1,
            Some(Wrong::LengthRefused) => played.length = 0,
            Some(Wrong::StateAtRefusal) => {
                self.port.call(Command {
                    kind: 7,
                    a: 0,
                    b: 0,
                })?;
            }
            _ => {}
        }
        Ok(())
    }
}

fn refused(number: u8, offset: usize, written: usize, length: u64) -> Played {
    Played {
        number: number.into(),
        offset: offset as u64,
        written: written as u64,
        length,
    }
}

impl<P: Port> Player for CallsPlayer<P> {
    fn play(&mut self, state: &mut [u64], script: &[u8], log: &mut [u8]) -> Result<Played, String> {
        let Some(first) = within(state) else {
            return Ok(refused(8, 0, 0, 0));
        };
        self.port.set(&read(&first));
        // A call that is always refused, so that it changes nothing: by 8,
        // which comes first, or by 2.
        let probe = self.port.call(Command {
            kind: 4,
            a: 2,
            b: 0,
        })?;
        match probe {
            Answer::Refused(2) => {}
            Answer::Refused(8) => {
                if self.is(Wrong::EightLate) && log.len() < 6 && !script.is_empty() {
                    return Ok(refused(9, 0, 0, 0));
                }
                if self.is(Wrong::EightTouches) {
                    state[16] ^= 1;
                }
                let passed = self.is(Wrong::EightEmpty) && script.is_empty();
                return Ok(refused(if passed { 0 } else { 8 }, 0, 0, 0));
            }
            other => return Err(format!("a line of 2 gives {other:?}")),
        }
        let mut played = self.commands(script, log)?;
        self.end(&mut played, log)?;
        if played.number != 0 && self.is(Wrong::StateOfStart) {
            return Ok(played);
        }
        let mut last = encode(&self.port.state()?);
        if self.is(Wrong::Unused) && last[17] == 0 {
            last[18] = 1;
        }
        state.copy_from_slice(&last);
        Ok(played)
    }
}
