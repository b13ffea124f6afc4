//! A port of the reference on its clocks, and the direct calls of documents 01
//! and 02 on it. Halves of kind 3 pass on the reference's own clocks, cycles on
//! the two counters; a call that needs the other clocks moves the port there.
use crate::registers::SSR;
use crate::rules::{cause, counting, cycles, refusal};
use crate::timed::Timed;
use reference::{
    AnySci, Clocks, Drive, Error, Frequencies, Sci, State, Time,
    counters::{self, clocks::Source},
    take_completed,
};
use std::fmt;

/// One second of the reference's time.
pub const SECOND: u128 = 1 << 64;

/// What a direct call gives: the value read (else 0), or a refusal's number.
#[derive(Clone, Copy, Debug, PartialEq, Eq)]
pub enum Answer {
    Done(u8),
    Refused(u8),
}

/// The reference did what document 01 has no place for.
#[derive(Clone, Copy, Debug, PartialEq, Eq)]
pub enum Fault {
    /// It answered an error.
    Reference(Error),
    /// It did not count the one half that was due.
    Counted { from: u64, to: u64 },
    /// Its half count moved where no edge may be counted.
    Moved { from: u64, to: u64 },
    /// It and document 01 disagree on whether halves pass.
    Counting { reference: bool },
    /// Its state is not one that document 01 keeps.
    State(&'static str),
    /// A half became due where time was to pass inside one.
    Inside,
    /// The port stands on other clocks than the call needs.
    Place,
}

impl From<Error> for Fault {
    fn from(error: Error) -> Self {
        Self::Reference(error)
    }
}

impl fmt::Display for Fault {
    fn fmt(&self, f: &mut fmt::Formatter<'_>) -> fmt::Result {
        match self {
            Self::Reference(error) => write!(f, "the reference answers Err({error:?})"),
            Self::Counted { from, to } => write!(f, "one half due at {from}, counted to {to}"),
            Self::Moved { from, to } => write!(f, "the half count moved from {from} to {to}"),
            Self::Counting { reference } => {
                write!(
                    f,
                    "reference counts halves: {reference}, document 01 not so"
                )
            }
            Self::State(reason) => write!(f, "no state of document 01: {reason}"),
            Self::Inside => write!(f, "no time left inside the half"),
            Self::Place => write!(f, "the port stands on other clocks"),
        }
    }
}

/// What the clock pin shows.
#[derive(Clone, Copy, Debug, PartialEq, Eq)]
pub enum ClockDrive {
    /// Not the port's.
    Free,
    Floating,
    Low,
    High,
}

/// How a half is stepped: as document 01 says, or one of three experiments.
#[derive(Clone, Copy, Debug, Default, PartialEq, Eq)]
pub enum Pass {
    #[default]
    Reference,
    WithoutExtraPass,
    EdgeFirst,
    ReceiverFirst,
}

/// What is done around the reference. The default is document 01's.
#[derive(Clone, Copy, Debug, PartialEq, Eq)]
pub struct Habits {
    /// Empty the optical log after each call; its 65th entry is an error.
    pub drain: bool,
    /// End the clock pin's excursion, which document 01 leaves free.
    pub end_glitch: bool,
    pub pass: Pass,
}

impl Default for Habits {
    fn default() -> Self {
        Self {
            drain: true,
            end_glitch: true,
            pass: Pass::Reference,
        }
    }
}

/// When the reference's own clocks and a port on them begin, in raw time.
#[derive(Clone, Copy, Debug)]
pub struct Setup {
    pub clocks: u128,
    pub port: u128,
    pub habits: Habits,
}

impl Default for Setup {
    /// The reference caches the next edge by its tick count without the
    /// clock it belongs to. The four clocks count 3686400, 230400, 57600 and
    /// 32768 ticks a second from time zero: after 1000 s they are millions
    /// apart and drift further, so no count of one is ever another's.
    fn default() -> Self {
        Self {
            clocks: 0,
            port: 1000 * SECOND,
            habits: Habits::default(),
        }
    }
}

/// The clocks that the port stands on.
#[derive(Clone, Debug)]
enum Place {
    Own(Box<Timed<Sci>>),
    Counters(Box<Timed<counters::sci::Sci>>),
}

/// The same on either clocks.
macro_rules! on {
    ($place:expr, $timed:ident => $what:expr) => {
        match $place {
            Place::Own($timed) => $what,
            Place::Counters($timed) => $what,
        }
    };
}

#[derive(Clone, Debug)]
pub struct Oracle {
    place: Place,
    setup: Setup,
    /// Cycles of the system clock and of the watch clock so far. The counters
    /// hold the same; the reference's own clocks do not pass by cycles.
    totals: [u64; 2],
    drained: usize,
    counted: u64,
    cause: u8,
}

impl Default for Oracle {
    fn default() -> Self {
        Self::fresh()
    }
}

impl Oracle {
    /// A fresh port, `Sci::default`.
    pub fn fresh() -> Self {
        Self::fresh_with(Setup::default())
    }
    pub fn fresh_with(setup: Setup) -> Self {
        Self::at(own(setup, |_, _| Sci::default()), setup, [0; 2])
    }
    /// A port in a given state. One that fails the field test is kept as it
    /// is, and every call on it is refused with 8.
    pub fn from_state(state: &State) -> Self {
        Self::from_state_with(state, Setup::default())
    }
    pub fn from_state_with(state: &State, setup: Setup) -> Self {
        let place = own(setup, |now, clocks| {
            Sci::oracle_from_state(state, now, clocks)
        });
        Self::at(place, setup, [state.system, state.watch])
    }
    /// A fresh port on counters whose revision never changes, which are no
    /// clocks that the reference can be trusted with: finding 1.
    pub fn fresh_on_standing_revision() -> Self {
        let clocks = counters::clocks::Clocks::with_standing_revision();
        let timed = Timed {
            sci: counters::sci::Sci::default(),
            now: clocks.now(),
            clocks,
        };
        Self::at(Place::Counters(timed.into()), Setup::default(), [0; 2])
    }
    fn at(place: Place, setup: Setup, totals: [u64; 2]) -> Self {
        Self {
            place,
            setup,
            totals,
            drained: 0,
            counted: 0,
            cause: 0,
        }
    }

    /// Told before them which kinds of calls are to come. Where there are
    /// cycles and no kind 3 the port stands on the counters from the first call
    /// to the last, so that all is the reference's.
    pub fn prepare(&mut self, kinds: impl Iterator<Item = u32>) -> Result<(), Fault> {
        let mut with_cycles = false;
        for kind in kinds {
            if kind == 3 {
                return Ok(());
            }
            with_cycles |= cycles(kind).is_some();
        }
        if with_cycles {
            self.move_to_counters(&self.try_state()?);
        }
        Ok(())
    }
    /// The port made anew on the counters, unless it is there.
    fn move_to_counters(&mut self, state: &State) {
        if matches!(self.place, Place::Own(_)) {
            let clocks = counters::clocks::Clocks::new(self.totals);
            let now = clocks.now();
            let sci = counters::sci::Sci::oracle_from_state(state, now, &clocks);
            self.place = Place::Counters(Timed { sci, clocks, now }.into());
        }
    }
    /// The port made anew on the reference's own clocks, unless it is there.
    fn move_to_own(&mut self, state: &State) {
        if matches!(self.place, Place::Counters(_)) {
            self.place = own(self.setup, |now, clocks| {
                Sci::oracle_from_state(state, now, clocks)
            });
        }
    }

    /// The state that documents 01 and 02 keep.
    pub fn state(&self) -> State {
        self.try_state().unwrap_or_else(|fault| panic!("{fault}"))
    }
    pub fn try_state(&self) -> Result<State, Fault> {
        on!(&self.place, t => t.sci.oracle_state(t.now, &t.clocks, self.totals))
            .map_err(Fault::State)
    }
    /// SSR as it stands; unlike a read it marks nothing as seen.
    pub fn ssr(&self) -> u8 {
        on!(&self.place, t => t.sci.peek(SSR as u16))
    }
    /// Clock pin, transmit pin, whether the receive pin is taken.
    fn pins(&self) -> (Option<Drive>, Option<bool>, bool) {
        on!(&self.place, t => t.sci.oracle_pins())
    }
    /// The transmit level: 0, 1, or 2 when not driven.
    pub fn level(&self) -> u8 {
        self.pins().1.map_or(2, u8::from)
    }
    pub fn clock_drive(&self) -> ClockDrive {
        match self.pins().0 {
            None => ClockDrive::Free,
            Some(Drive::Floating) => ClockDrive::Floating,
            Some(Drive::Low) => ClockDrive::Low,
            Some(Drive::High) => ClockDrive::High,
        }
    }
    /// Whether the port takes the receive pin.
    pub fn receive_enable(&self) -> bool {
        self.pins().2
    }
    pub fn interrupt(&self) -> bool {
        on!(&self.place, t => t.sci.interrupt())
    }
    /// Whether the clock pin shows what document 01 leaves free.
    pub fn glitch(&self) -> bool {
        on!(&self.place, t => t.sci.oracle_glitch())
    }
    fn half_count(&self) -> u64 {
        on!(&self.place, t => t.sci.oracle_half())
    }
    /// How many transmit changes were taken from the optical log so far.
    pub fn drained(&self) -> usize {
        self.drained
    }
    /// How many edges of the clock the reference counted in this port's calls
    /// so far, in 64 bits that wrap. Each is taken where it is counted, so a
    /// reset, which puts the half count to 0, takes none away.
    pub fn counted(&self) -> u64 {
        self.counted
    }
    /// The number of the last call's cause: of the last word that the reference
    /// completed in it, 0 where it completed none.
    pub fn cause(&self) -> u8 {
        self.cause
    }
    /// The reference's own test of its state.
    pub fn validate(&self) -> Result<(), Error> {
        on!(&self.place, t => t.sci.oracle_validate(t.now))
    }

    /// One direct call; an operand that the kind does not have is ignored. A
    /// fault of the reference is a panic, and `try_call` hands it back.
    pub fn call(&mut self, kind: u32, a: u32, b: u32) -> Answer {
        self.try_call(kind, a, b)
            .unwrap_or_else(|fault| panic!("kind {kind} {a} {b}: {fault}"))
    }
    pub fn try_call(&mut self, kind: u32, a: u32, b: u32) -> Result<Answer, Fault> {
        let state = self.try_state()?;
        if let Some(number) = refusal(&state, kind, a, b) {
            self.cause = 0;
            return Ok(Answer::Refused(number));
        }
        self.accepted(&state, kind, a, b).map(Answer::Done)
    }
    /// A call that no rule refuses in `state`, which is the present one.
    pub(crate) fn accepted(
        &mut self,
        state: &State,
        kind: u32,
        a: u32,
        b: u32,
    ) -> Result<u8, Fault> {
        match kind {
            3 => self.move_to_own(state),
            8 | 9 => self.move_to_counters(state),
            _ => {}
        }
        let reference = on!(&self.place, t => t.sci.oracle_counting());
        if counting(state) != reference {
            return Err(Fault::Counting { reference });
        }
        let (half, counted) = (self.half_count(), self.counted);
        take_completed();
        let answer = self.perform(reference, kind, a, b)?;
        self.cause = take_completed().map_or(0, cause);
        self.tidy();
        // What was counted is all that moved the half count but a reset.
        let to = self.half_count();
        let from = half + self.counted.wrapping_sub(counted);
        if to != from && (kind, to) != (6, 0) {
            return Err(Fault::Moved { from, to });
        }
        Ok(answer)
    }

    /// Operands are in range, so each fits the type it is cast to.
    fn perform(&mut self, counting: bool, kind: u32, a: u32, b: u32) -> Result<u8, Fault> {
        match kind {
            1 => return Ok(on!(&mut self.place, t => t.sci.read(a as u16))),
            2 => on!(&mut self.place, t => t.write(a as u16, b as u8))?,
            3 if counting => {
                for _ in 0..a {
                    self.half()?;
                }
            }
            3 if a > 0 => self.inside()?,
            4 => on!(&mut self.place, t => t.input_pins(None, a != 0))?,
            5 => {
                let from = self.half_count();
                on!(&mut self.place, t => t.input_pins(Some(a != 0), b != 0))?;
                self.count(from);
            }
            6 => on!(&mut self.place, t => t.set_power(a))?,
            7 => self.inside()?,
            8 | 9 => {
                for _ in 0..a {
                    self.cycle(kind)?;
                }
            }
            _ => {}
        }
        Ok(0)
    }
    /// One half on the reference's own clocks.
    fn half(&mut self) -> Result<(), Fault> {
        let from = self.half_count();
        let Place::Own(timed) = &mut self.place else {
            return Err(Fault::Place);
        };
        timed.half(self.setup.habits.pass)?;
        self.tidy();
        self.one(from)
    }
    /// One cycle on the counters.
    fn cycle(&mut self, kind: u32) -> Result<(), Fault> {
        let from = self.half_count();
        let Place::Counters(timed) = &mut self.place else {
            return Err(Fault::Place);
        };
        let (source, total) = match kind {
            8 => (Source::System, &mut self.totals[0]),
            _ => (Source::Watch, &mut self.totals[1]),
        };
        *total += 1;
        if !timed.cycle(source)? {
            return Ok(());
        }
        self.tidy();
        self.one(from)
    }
    /// The reference counted just one half.
    fn one(&mut self, from: u64) -> Result<(), Fault> {
        let to = self.half_count();
        if to != from + 1 {
            return Err(Fault::Counted { from, to });
        }
        self.count(from);
        Ok(())
    }
    /// What the half count gained since it was this.
    fn count(&mut self, from: u64) {
        let gained = self.half_count().wrapping_sub(from);
        self.counted = self.counted.wrapping_add(gained);
    }
    /// Time moves by its least step, and no half may become due by it.
    fn inside(&mut self) -> Result<(), Fault> {
        on!(&mut self.place, t => t.step());
        match on!(&self.place, t => t.due()) {
            true => Err(Fault::Inside),
            false => Ok(()),
        }
    }
    /// What the board around the port would do.
    fn tidy(&mut self) {
        let habits = self.setup.habits;
        if habits.drain {
            self.drained += on!(&mut self.place, t => t.sci.oracle_drain());
        }
        if habits.end_glitch {
            on!(&mut self.place, t => t.sci.oracle_end_glitch());
        }
    }
}

/// On the reference's own clocks.
fn own(setup: Setup, sci: impl FnOnce(Time, &Clocks) -> Sci) -> Place {
    let clocks = Clocks::new(Time::from_raw(setup.clocks), Frequencies::default())
        .expect("the reference's own frequencies make clocks");
    let now = Time::from_raw(setup.port);
    let timed = Timed {
        sci: sci(now, &clocks),
        clocks,
        now,
    };
    Place::Own(timed.into())
}
