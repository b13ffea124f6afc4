//! The reference with its clocks and its time, and how time passes on either.
use crate::oracle::{Fault, Pass};
use reference::{
    AnySci, Error, Sci, Time,
    counters::{self, clocks::Source},
};

#[derive(Clone, Debug)]
pub(crate) struct Timed<S: AnySci> {
    pub sci: S,
    pub clocks: S::Clocks,
    pub now: Time,
}

impl<S: AnySci> Timed<S> {
    pub fn write(&mut self, address: u16, value: u8) -> Result<(), Error> {
        self.sci.write(address, value, self.now, &self.clocks)
    }
    pub fn input_pins(&mut self, clock: Option<bool>, line: bool) -> Result<(), Error> {
        self.sci
            .input_pins(clock, line, self.now, &self.clocks)
            .map(|_| ())
    }
    pub fn set_power(&mut self, bits: u32) -> Result<(), Error> {
        let bits = [1, 2, 4, 8].map(|mask| bits & mask != 0);
        self.sci.set_power(bits, self.now, &self.clocks)
    }
    /// Whether a half is due now that is not counted yet.
    pub fn due(&self) -> bool {
        self.sci.oracle_due(self.now, &self.clocks)
    }
}

impl Timed<Sci> {
    /// One half: the reference is advanced at the half's edge.
    pub fn half(&mut self, pass: Pass) -> Result<(), Fault> {
        self.now = self
            .sci
            .oracle_edge_after(1, &self.clocks)?
            .ok_or(Fault::Counting { reference: false })?;
        let (now, clocks) = (self.now, &self.clocks);
        match pass {
            Pass::Reference => self.sci.advance(now, clocks)?,
            Pass::WithoutExtraPass => self.sci.oracle_advance_without_extra_pass(now, clocks)?,
            Pass::EdgeFirst => self.sci.oracle_advance_edge_first(now, clocks)?,
            Pass::ReceiverFirst => self.sci.oracle_advance_receiver_first(now, clocks)?,
        }
        Ok(())
    }
    /// Time's least step.
    pub fn step(&mut self) {
        self.now = Time::from_raw(self.now.raw() + 1);
    }
}

impl Timed<counters::sci::Sci> {
    /// One cycle of a clock; whether a half is due at it, at whose edge the
    /// reference is then advanced.
    pub fn cycle(&mut self, source: Source) -> Result<bool, Fault> {
        self.clocks.pass(source, 1);
        self.now = self.clocks.now();
        let due = self.due();
        if due {
            self.sci.advance(self.now, &self.clocks)?;
        }
        Ok(due)
    }
    /// Time's least step.
    pub fn step(&mut self) {
        self.clocks.step();
        self.now = self.clocks.now();
    }
}
