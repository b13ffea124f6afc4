//! Inputs and how their results are put into words.
use model::{End, LOG, Oracle, RECORD, Run, Setup, State, Tx, bytes, line, play};

/// One input, the result the paper gives for it, and the result met.
#[derive(Clone, Debug)]
pub struct Part {
    pub input: String,
    pub expected: String,
    pub met: String,
    /// The script, where the input is one for a fresh port.
    pub script: Option<String>,
}

impl Part {
    pub fn new(
        input: impl Into<String>,
        expected: impl Into<String>,
        met: impl Into<String>,
    ) -> Self {
        Self {
            input: input.into(),
            expected: expected.into(),
            met: met.into(),
            script: None,
        }
    }
    /// The same, its input being this script on a fresh port.
    pub fn of(self, script: &str) -> Self {
        Self {
            script: Some(script.into()),
            ..self
        }
    }
    pub fn agrees(&self) -> bool {
        self.expected == self.met
    }
}

/// Play a script with a log that suffices.
pub fn run(oracle: &mut Oracle, script: &str) -> Result<Run, model::Fault> {
    play(oracle, &bytes(script), &mut [0; LOG])
}

/// A script from a fresh port as the program prints it, and the port.
pub fn printed(script: &[u8]) -> Result<(String, Oracle), model::Fault> {
    let mut oracle = Oracle::fresh();
    let mut log = [0; LOG];
    let run = play(&mut oracle, script, &mut log)?;
    let records = log.chunks_exact(RECORD).take(run.records);
    let mut lines: Vec<String> = records.map(line).collect();
    lines.push(run.last_line());
    Ok((lines.join("\n"), oracle))
}

/// The port after a script that is accepted.
pub fn after_on(mut oracle: Oracle, script: &str) -> Oracle {
    match run(&mut oracle, script) {
        Ok(Run {
            end: End::Accepted, ..
        }) => oracle,
        other => panic!("{script}: {other:?}"),
    }
}

pub fn after(script: &str) -> Oracle {
    after_on(Oracle::fresh(), script)
}

/// A script from a fresh port, and what the state then shows.
pub fn shows(script: &str, expected: &str, show: impl FnOnce(&State) -> String) -> Part {
    Part::new(script, expected, show(&after(script).state())).of(script)
}

/// The end of a script from a fresh port, as the program prints it.
pub fn ends(script: &str, expected: &str) -> Part {
    Part::new(script, expected, end(&mut Oracle::fresh(), script)).of(script)
}

pub fn end(oracle: &mut Oracle, script: &str) -> String {
    match run(oracle, script) {
        Ok(run) => run.last_line(),
        Err(fault) => fault.to_string(),
    }
}

/// A fresh state with something changed.
pub fn given(change: impl FnOnce(&mut State)) -> State {
    let mut state = Oracle::fresh().state();
    change(&mut state);
    state
}

pub fn setup(clocks: u128, port: u128) -> Setup {
    Setup {
        clocks,
        port,
        ..Setup::default()
    }
}

pub fn hex(value: Option<u8>) -> String {
    value.map_or("none".into(), |v| format!("{v:02X}"))
}

pub fn due(value: Option<u32>) -> String {
    value.map_or("none".into(), |v| v.to_string())
}

pub fn bit(value: bool) -> u8 {
    value.into()
}

pub fn sender(s: &State) -> String {
    match s.tx {
        None => "no sender".into(),
        Some(Tx::Blocked { .. }) => "blocked".into(),
        Some(Tx::Mark { next }) => format!("mark to {next}"),
        Some(Tx::Start { next, .. }) => format!("start due {next}"),
        Some(Tx::Data { cell, next, .. }) => format!("data {cell} due {}", due(next)),
        Some(Tx::Tail { loaded, next }) => format!(
            "tail {} word due {}",
            if loaded.is_some() { "with" } else { "without" },
            due(next)
        ),
    }
}

pub fn receiver(s: &State) -> String {
    match s.rx {
        None => "no receiver".into(),
        Some(rx) => format!("position {} due {}", rx.position, due(rx.next)),
    }
}
