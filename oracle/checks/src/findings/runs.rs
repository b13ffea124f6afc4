//! Random runs, and counting those in which two ways differ.
use crate::Part;
use model::{
    Command, Fault, Habits, Oracle, Setup, State,
    sample::{self, Random},
};

/// Calls after the opening of a run from a fresh port, and from a state.
const FRESH: usize = 60;
const GIVEN: usize = 12;

/// A run: a state to start from, or a fresh port, and the calls.
pub struct Sample {
    start: Option<State>,
    pub calls: Vec<Command>,
}

impl Sample {
    pub fn fresh(seed: u64) -> Self {
        let r = &mut Random::new(seed);
        let mut calls = sample::opening(r);
        calls.extend((0..FRESH).map(|_| sample::call(r)));
        Self { start: None, calls }
    }
    pub fn given(seed: u64) -> Self {
        let r = &mut Random::new(seed);
        Self {
            start: Some(sample::state(r)),
            calls: (0..GIVEN).map(|_| sample::call(r)).collect(),
        }
    }
    pub fn port(&self, habits: Habits) -> Oracle {
        let setup = Setup {
            habits,
            ..Setup::default()
        };
        match &self.start {
            None => Oracle::fresh_with(setup),
            Some(state) => Oracle::from_state_with(state, setup),
        }
    }
    /// Whether two ways of stepping show document 01 anything different.
    pub fn differs(&self, one: Habits, other: Habits) -> Result<bool, Fault> {
        let (mut one, mut other) = (self.port(one), self.port(other));
        for c in &self.calls {
            let first = one.try_call(c.kind, c.a, c.b)?;
            let second = other.try_call(c.kind, c.a, c.b)?;
            if (first, shown(&one)?) != (second, shown(&other)?) {
                return Ok(true);
            }
        }
        Ok(false)
    }
}

/// What document 01 compares, but for the clock pin.
pub fn shown(port: &Oracle) -> Result<(State, u8, bool), Fault> {
    Ok((port.try_state()?, port.level(), port.interrupt()))
}

/// How many of `size` samples are different, or the first fault.
pub fn count(
    size: u32,
    make: fn(u64) -> Sample,
    different: impl Fn(&Sample) -> Result<bool, Fault>,
) -> Result<u32, String> {
    let mut found = 0;
    for seed in 0..u64::from(size) {
        match different(&make(seed)) {
            Ok(is) => found += u32::from(is),
            Err(fault) => return Err(format!("seed {seed}: {fault}")),
        }
    }
    Ok(found)
}

/// A part that expects no sample to be different.
pub fn none(input: String, counted: Result<u32, String>) -> Part {
    let met = counted.map_or_else(|fault| fault, |found| format!("{found} differ"));
    Part::new(input, "0 differ", met)
}
