//! What both sides can do.
use model::{Answer, ClockDrive, Command, Oracle, State};

#[derive(Clone, Copy, Debug, PartialEq, Eq)]
pub struct Pins {
    /// 0, 1, or 2 when not driven.
    pub level: u8,
    pub clock: ClockDrive,
    /// Whether the port takes the receive pin.
    pub receive: bool,
}

/// One side. An error is what document 01 has no place for: a fault of the
/// reference, or an array that is no state.
pub trait Port {
    fn fresh(&mut self);
    fn set(&mut self, state: &State);
    /// Told before them which calls are to come; the oracle chooses its clocks
    /// by it.
    fn prepare(&mut self, _: &[Command]) -> Result<(), String> {
        Ok(())
    }
    fn state(&self) -> Result<State, String>;
    fn call(&mut self, call: Command) -> Result<Answer, String>;
    fn pins(&self) -> Result<Pins, String>;
    fn interrupt(&self) -> Result<bool, String>;
    /// The number of the last call's cause; 0 before the first.
    fn cause(&self) -> u64;
}

/// All that is compared after a call.
#[derive(Clone, Copy, Debug, PartialEq, Eq)]
pub struct Shown {
    pub answer: Answer,
    pub cause: u64,
    pub state: State,
    pub pins: Pins,
    pub interrupt: bool,
}

impl Shown {
    /// What a port shows when a call has answered.
    pub fn of(port: &dyn Port, answer: Answer) -> Result<Self, String> {
        Ok(Self {
            answer,
            cause: port.cause(),
            state: port.state()?,
            pins: port.pins()?,
            interrupt: port.interrupt()?,
        })
    }
}

/// The reference.
#[derive(Default)]
pub struct OraclePort(Oracle);

impl Port for OraclePort {
    fn fresh(&mut self) {
        self.0 = Oracle::fresh();
    }
    fn set(&mut self, state: &State) {
        self.0 = Oracle::from_state(state);
    }
    fn prepare(&mut self, calls: &[Command]) -> Result<(), String> {
        let kinds = calls.iter().map(|call| call.kind);
        self.0.prepare(kinds).map_err(|fault| fault.to_string())
    }
    fn state(&self) -> Result<State, String> {
        self.0.try_state().map_err(|fault| fault.to_string())
    }
    fn call(&mut self, call: Command) -> Result<Answer, String> {
        self.0
            .try_call(call.kind, call.a, call.b)
            .map_err(|fault| fault.to_string())
    }
    fn pins(&self) -> Result<Pins, String> {
        Ok(Pins {
            level: self.0.level(),
            clock: self.0.clock_drive(),
            receive: self.0.receive_enable(),
        })
    }
    fn interrupt(&self) -> Result<bool, String> {
        Ok(self.0.interrupt())
    }
    fn cause(&self) -> u64 {
        self.0.cause().into()
    }
}
