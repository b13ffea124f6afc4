//! A wrong port for the fuzzer to find: the oracle with one alteration, whose
//! mistake stays in the state.
use crate::{
    alter::Alteration,
    port::{OraclePort, Pins, Port, Shown},
};
use model::{Answer, Command, State};

pub struct AlteredPort {
    port: OraclePort,
    alteration: &'static Alteration,
    /// What the last call showed.
    shown: Option<Shown>,
}

impl AlteredPort {
    pub fn new(alteration: &'static Alteration) -> Self {
        Self {
            port: OraclePort::default(),
            alteration,
            shown: None,
        }
    }
}

impl Port for AlteredPort {
    fn fresh(&mut self) {
        self.shown = None;
        self.port.fresh();
    }
    fn set(&mut self, state: &State) {
        self.shown = None;
        self.port.set(state);
    }
    fn state(&self) -> Result<State, String> {
        self.port.state()
    }
    fn call(&mut self, call: Command) -> Result<Answer, String> {
        let before = self.port.state()?;
        let answer = self.port.call(call)?;
        let right = Shown::of(&self.port, answer)?;
        let mut shown = right;
        (self.alteration.apply)(&before, call, &mut shown);
        // A port that is set anew forgets how its clocks stood, so only where
        // there is something to set.
        if shown.state != right.state {
            self.port.set(&shown.state);
        }
        self.shown = Some(shown);
        Ok(shown.answer)
    }
    fn pins(&self) -> Result<Pins, String> {
        self.shown.map_or_else(|| self.port.pins(), |s| Ok(s.pins))
    }
    fn interrupt(&self) -> Result<bool, String> {
        self.shown
            .map_or_else(|| self.port.interrupt(), |s| Ok(s.interrupt))
    }
    fn cause(&self) -> u64 {
        self.shown.map_or(0, |s| s.cause)
    }
}
