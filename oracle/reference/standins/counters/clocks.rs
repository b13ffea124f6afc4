//! Stand-in for the clocks, of document 02: two counters, which run freely from
//! 0 and are moved by whoever drives the port. Time is a count of steps: one
//! step for each cycle of either clock and each least step inside a half. A
//! divider is no state of its own; its ticks are the cycles so far, divided.
use crate::{
    error::Error,
    time::{Time, TimeError},
};
use std::cell::Cell;

#[derive(Clone, Copy, Debug, PartialEq, Eq)]
pub enum Source {
    System,
    Watch,
}

#[derive(Clone, Copy, Debug, PartialEq, Eq)]
pub struct Tap {
    pub source: Source,
    pub divide: u32,
}
impl Tap {
    pub const fn system(divide: u32) -> Self {
        Self {
            source: Source::System,
            divide,
        }
    }
    pub const fn watch(divide: u32) -> Self {
        Self {
            source: Source::Watch,
            divide,
        }
    }
    pub(crate) fn validate(self) -> Result<(), Error> {
        crate::state::require(self.divide != 0, "zero clock divider")
    }
}

#[derive(Clone, Debug)]
pub struct Clocks {
    now: Time,
    totals: [u64; 2],
    revision: Cell<u64>,
    /// Experiment: the revision never changes.
    standing: bool,
}

/// How it is moved.
impl Clocks {
    /// With so many cycles before, later than time zero.
    pub fn new(totals: [u64; 2]) -> Self {
        Self {
            now: Time::from_raw(1),
            totals,
            revision: Cell::new(0),
            standing: false,
        }
    }
    /// Experiment: clocks that ask to be cached.
    pub fn with_standing_revision() -> Self {
        Self {
            standing: true,
            ..Self::new([0; 2])
        }
    }
    #[inline]
    pub fn now(&self) -> Time {
        self.now
    }
    /// Cycles so far of the system clock and of the watch clock.
    pub fn totals(&self) -> [u64; 2] {
        self.totals
    }
    /// So many cycles of one clock pass; the other stands meanwhile.
    #[inline]
    pub fn pass(&mut self, source: Source, cycles: u64) {
        self.totals[source as usize] += cycles;
        self.now = Time::from_raw(self.now.raw() + u128::from(cycles));
    }
    /// Time's least step: no clock moves.
    pub fn step(&mut self) {
        self.now = Time::from_raw(self.now.raw() + 1);
    }
}

/// What the reference asks.
impl Clocks {
    #[inline]
    fn total(&self, source: Source) -> u64 {
        self.totals[source as usize]
    }
    #[inline]
    pub fn ticks(&self, now: Time, tap: Tap) -> u64 {
        debug_assert_eq!(now, self.now, "only the present is asked for");
        // The dividers are powers of two, and a division at each cycle is dear.
        debug_assert!(tap.divide.is_power_of_two());
        self.total(tap.source) >> tap.divide.trailing_zeros()
    }
    /// When a tick comes, or came, if from the last half on no other clock runs
    /// and no least step is made. So it is exact for the tick of the last step,
    /// and what is still to come is always later than now.
    pub fn edge(&self, tick: u64, tap: Tap) -> Result<Time, Error> {
        let target = u128::from(tick) * u128::from(tap.divide);
        let at = self.now.raw() + target;
        match at.checked_sub(self.total(tap.source).into()) {
            Some(at) => Ok(Time::from_raw(at)),
            None => Err(TimeError::Reversed.into()),
        }
    }
    /// Neither counter is ever held.
    pub fn available(&self, _: Tap) -> bool {
        true
    }
    /// New at every call, so that the reference caches no time of an edge: a
    /// time to come changes with each step that is not the chosen clock's, and
    /// its cache mixes up the counts of two clocks that begin together.
    pub(crate) fn revision(&self) -> u64 {
        if !self.standing {
            self.revision.set(self.revision.get() + 1);
        }
        self.revision.get()
    }
    /// Half a system cycle is the least step: the clock pin's excursion, which
    /// is not compared.
    pub fn system_rate(&self) -> (u64, u64) {
        (1 << 63, 1)
    }
}

/// A wait of an infrared pulse for system cycles. IRCR bit 7 is refused, so
/// there is none.
#[derive(Clone, Copy, Debug, PartialEq, Eq)]
pub enum ClockWait {}
impl ClockWait {
    pub fn after(_: Time, _: u64, _: Tap, _: &Clocks) -> Result<Self, Error> {
        Err(Error::Internal("no pulse waits for system cycles here"))
    }
    pub fn deadline(&self, _: &Clocks) -> Result<Option<Time>, Error> {
        match *self {}
    }
    pub fn pause(&mut self, _: Time, _: &Clocks) -> Result<(), Error> {
        match *self {}
    }
    pub fn resume(&mut self, _: Time, _: &Clocks) -> Result<(), Error> {
        match *self {}
    }
    pub(crate) fn validate(self) -> Result<(), Error> {
        match self {}
    }
}
