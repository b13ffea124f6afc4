//! The reference as its board drives it, or stepped one by one: on its own
//! clocks, where halves pass, or on the two counters, where cycles do. Unlike
//! `model::Oracle` it tests nothing on the way: what is measured is the
//! reference. That it ends where the oracle ends is compared outside.
use model::{
    Command, Setup, State, cause,
    registers::{SMR, SSR},
};
use reference::{
    AnySci, Clocks, Error, Frequencies, Sci, Time,
    counters::{
        self,
        clocks::{Clocks as Counters, Source},
    },
    take_completed,
};

/// The reference's port on the counters.
pub type Counted = counters::sci::Sci;

/// How time passes.
#[derive(Clone, Copy, Debug, PartialEq, Eq)]
pub enum Pace {
    /// From one deadline of the reference to the next.
    Events,
    /// At each half's edge, or cycle by cycle.
    Steps,
}

#[derive(Clone)]
pub struct Reference<S: AnySci> {
    sci: S,
    clocks: S::Clocks,
    now: Time,
    /// Cycles before the first call.
    totals: [u64; 2],
    pace: Pace,
}

/// What is not the same on both clocks.
pub trait Driven: AnySci<Clocks: Clone> + 'static {
    /// Clocks with so many cycles before.
    fn clocks(totals: [u64; 2]) -> Self::Clocks;
    /// When a port on them begins.
    fn begin(clocks: &Self::Clocks) -> Time;
    /// Cycles so far, of clocks that began with so many.
    fn totals(clocks: &Self::Clocks, first: [u64; 2]) -> [u64; 2];
    /// Time's least step.
    fn inside(port: &mut Reference<Self>);
    /// Kind 3, 8 or 9, as far as these clocks have it.
    fn pass(port: &mut Reference<Self>, kind: u32, n: u32) -> Result<(), Error>;
}

impl<S: Driven> Reference<S> {
    pub fn at(state: &State, pace: Pace) -> Self {
        let totals = [state.system, state.watch];
        let clocks = S::clocks(totals);
        let now = S::begin(&clocks);
        Self {
            sci: S::oracle_from_state(state, now, &clocks),
            clocks,
            now,
            totals,
            pace,
        }
    }
    /// To another state, at the time at which a port begins.
    pub fn set(&mut self, state: &State) {
        let totals = [state.system, state.watch];
        if self.totals() != totals {
            self.clocks = S::clocks(totals);
            self.totals = totals;
        }
        self.now = S::begin(&self.clocks);
        self.sci = S::oracle_from_state(state, self.now, &self.clocks);
        // What a run without records left.
        take_completed();
    }
    pub fn state(&self) -> Result<State, String> {
        let totals = self.totals();
        let state = self.sci.oracle_state(self.now, &self.clocks, totals);
        state.map_err(str::to_string)
    }
    pub fn totals(&self) -> [u64; 2] {
        S::totals(&self.clocks, self.totals)
    }
    pub fn half(&self) -> u64 {
        self.sci.oracle_half()
    }
    pub fn counting(&self) -> bool {
        self.sci.oracle_counting()
    }

    /// A call that nothing refuses, and the value read, else 0. `model::Oracle`
    /// makes the same calls of the reference, with its tests between them; they
    /// stand here again because nothing else may be timed.
    #[inline]
    pub fn call(&mut self, Command { kind, a, b }: Command) -> Result<u8, Error> {
        let (now, clocks) = (self.now, &self.clocks);
        match kind {
            // A read neither moves the line nor ends clocked output.
            1 => return Ok(self.sci.read(a as u16)),
            2 => self.sci.write(a as u16, b as u8, now, clocks)?,
            4 => {
                self.sci.input_pins(None, a != 0, now, clocks)?;
            }
            5 => {
                self.sci.input_pins(Some(a != 0), b != 0, now, clocks)?;
            }
            6 => {
                let bits = [1, 2, 4, 8].map(|mask| a & mask != 0);
                self.sci.set_power(bits, now, clocks)?;
            }
            7 => S::inside(self),
            _ => S::pass(self, kind, a)?,
        }
        self.tidy();
        Ok(0)
    }
    /// Kind, answer, SSR, transmit level (2 if not driven), interrupt, cause.
    #[inline]
    pub fn record(&self, kind: u32, answer: u8) -> [u8; model::RECORD] {
        let (_, transmit, _) = self.sci.oracle_pins();
        [
            kind as u8,
            answer,
            self.sci.peek(SSR as u16),
            transmit.map_or(2, u8::from),
            self.sci.interrupt().into(),
            take_completed().map_or(0, cause),
        ]
    }
    fn advance(&mut self) -> Result<(), Error> {
        self.sci.advance(self.now, &self.clocks)
    }
    fn next_edge(&self) -> Result<Option<Time>, Error> {
        self.sci.oracle_edge_after(1, &self.clocks)
    }
    /// What the board would do after a call: empty the optical log, which
    /// holds fewer than 64 changes since three words are the most that one
    /// wait can send, and let the clock pin's excursion end.
    fn tidy(&mut self) {
        self.sci.oracle_drain();
        self.sci.oracle_end_glitch();
    }
}

impl Driven for Sci {
    /// Clocks and port begin where the oracle's do: far enough apart that the
    /// reference's cache of its next edge is never wrong.
    fn clocks(_: [u64; 2]) -> Clocks {
        Clocks::new(
            Time::from_raw(Setup::default().clocks),
            Frequencies::default(),
        )
        .expect("the reference's own frequencies make clocks")
    }
    fn begin(_: &Clocks) -> Time {
        Time::from_raw(Setup::default().port)
    }
    fn totals(_: &Clocks, first: [u64; 2]) -> [u64; 2] {
        first
    }
    fn inside(port: &mut Reference<Self>) {
        port.now = Time::from_raw(port.now.raw() + 1);
    }
    fn pass(port: &mut Reference<Self>, kind: u32, halves: u32) -> Result<(), Error> {
        if kind != 3 {
            return Err(Error::Internal("cycles pass on the counters"));
        }
        if halves == 0 {
            return Ok(());
        }
        // No edge to come: the port stands, or an external clock drives it.
        let Some(end) = port.sci.oracle_edge_after(halves.into(), &port.clocks)? else {
            Self::inside(port);
            return Ok(());
        };
        match port.pace {
            Pace::Events => port.by_events(end),
            Pace::Steps => port.by_halves(end),
        }
    }
}

impl Reference<Sci> {
    /// As the board does: to the next deadline, or to the end if that is
    /// before it.
    fn by_events(&mut self, end: Time) -> Result<(), Error> {
        loop {
            let due = self.sci.deadline(&self.clocks)?;
            self.now = due.map_or(end, |due| due.min(end));
            self.advance()?;
            if self.now == end {
                return Ok(());
            }
        }
    }
    fn by_halves(&mut self, end: Time) -> Result<(), Error> {
        while self.now < end {
            let edge = self.next_edge()?;
            self.now = edge.ok_or(Error::Internal("the clock stands inside a wait"))?;
            self.advance()?;
        }
        Ok(())
    }
}

impl Driven for Counted {
    fn clocks(totals: [u64; 2]) -> Counters {
        Counters::new(totals)
    }
    /// Where time stands: a state with the edge bit is at its edge then.
    fn begin(clocks: &Counters) -> Time {
        clocks.now()
    }
    fn totals(clocks: &Counters, _: [u64; 2]) -> [u64; 2] {
        clocks.totals()
    }
    fn inside(port: &mut Reference<Self>) {
        port.clocks.step();
        port.now = port.clocks.now();
    }
    fn pass(port: &mut Reference<Self>, kind: u32, cycles: u32) -> Result<(), Error> {
        let source = match kind {
            8 => Source::System,
            9 => Source::Watch,
            _ => return Err(Error::Internal("halves pass on the reference's own clocks")),
        };
        // The time of an edge is that of the chosen clock running alone.
        let watch = port.sci.peek(SMR as u16) & 3 == 1;
        if watch != (source == Source::Watch) {
            port.run(source, cycles.into());
            return Ok(());
        }
        match port.pace {
            Pace::Events => port.by_deadlines(source, cycles),
            Pace::Steps => port.by_cycles(source, cycles),
        }
    }
}

impl Reference<Counted> {
    fn run(&mut self, source: Source, cycles: u64) {
        self.clocks.pass(source, cycles);
        self.now = self.clocks.now();
    }
    /// To the next deadline, or to the end if that is before it; there the
    /// board only looks.
    fn by_deadlines(&mut self, source: Source, cycles: u32) -> Result<(), Error> {
        let end = Time::from_raw(self.now.raw() + u128::from(cycles));
        loop {
            let due = self.sci.deadline(&self.clocks)?;
            let Some(due) = due.filter(|due| *due <= end) else {
                self.run(source, (end.raw() - self.now.raw()) as u64);
                return self.sci.sync(self.now, &self.clocks);
            };
            self.run(source, (due.raw() - self.now.raw()) as u64);
            self.advance()?;
        }
    }
    fn by_cycles(&mut self, source: Source, cycles: u32) -> Result<(), Error> {
        for _ in 0..cycles {
            self.run(source, 1);
            if self.next_edge()? == Some(self.now) {
                self.advance()?;
            }
        }
        Ok(())
    }
}
