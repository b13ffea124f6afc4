//! What the oracle asks of the reference, on whichever clock it stands. The
//! implementation is in the file that is appended to sci.rs, and so in both.
use crate::{Drive, Error, State, Time};

pub trait AnySci: Clone + Default {
    type Clocks;

    // The reference's own.
    fn peek(&self, a: u16) -> u8;
    fn read(&mut self, a: u16) -> u8;
    fn write(&mut self, a: u16, v: u8, now: Time, c: &Self::Clocks) -> Result<(), Error>;
    /// Module, main clock, subclock, reset mode.
    fn set_power(&mut self, bits: [bool; 4], now: Time, c: &Self::Clocks) -> Result<(), Error>;
    fn input_pins(
        &mut self,
        clock: Option<bool>,
        input: bool,
        now: Time,
        c: &Self::Clocks,
    ) -> Result<bool, Error>;
    fn sync(&mut self, now: Time, c: &Self::Clocks) -> Result<(), Error>;
    fn advance(&mut self, now: Time, c: &Self::Clocks) -> Result<(), Error>;
    fn deadline(&self, c: &Self::Clocks) -> Result<Option<Time>, Error>;
    fn interrupt(&self) -> bool;

    // Access. Nothing here takes part in what the port does.
    /// What the clock pin and the transmit pin show, and whether the receive
    /// pin is taken.
    fn oracle_pins(&self) -> (Option<Drive>, Option<bool>, bool);
    /// The state that documents 01 and 02 keep; the cycles so far are not the
    /// port's. Refused with a reason where a part that is left behind has
    /// moved, since the state would then not be the whole port.
    fn oracle_state(
        &self,
        now: Time,
        c: &Self::Clocks,
        totals: [u64; 2],
    ) -> Result<State, &'static str>;
    /// A port in a given state, valid or not, at `now`, which is later than
    /// time zero.
    fn oracle_from_state(s: &State, now: Time, c: &Self::Clocks) -> Self;
    fn oracle_half(&self) -> u64;
    /// Whether halves pass by themselves: the reference's own view.
    fn oracle_counting(&self) -> bool;
    /// Whether the next half is due by `now`, which the counter has not counted.
    fn oracle_due(&self, now: Time, c: &Self::Clocks) -> bool;
    /// The time of the edge of the half so many halves from now, while halves
    /// pass.
    fn oracle_edge_after(&self, halves: u64, c: &Self::Clocks) -> Result<Option<Time>, Error>;
    /// Empty the optical log; how many changes it held.
    fn oracle_drain(&mut self) -> usize;
    /// Whether the clock pin shows the excursion after clocked output.
    fn oracle_glitch(&self) -> bool;
    /// End that excursion, as its time passing would.
    fn oracle_end_glitch(&mut self);
    /// The reference's own test of a state.
    fn oracle_validate(&self, now: Time) -> Result<(), Error>;
}
