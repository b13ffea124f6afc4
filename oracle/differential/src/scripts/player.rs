//! What plays a script: the oracle's player, and the trait of those that are
//! compared with it.
use crate::{
    compare::Start,
    layout::{Words, encode},
};
use model::{End, Oracle, RECORD, State};

/// A script, where it begins, and the length of its log.
#[derive(Clone, Debug)]
pub struct Case {
    pub start: Start,
    pub script: Vec<u8>,
    pub log: usize,
}

/// What is answered beside the state and the log.
#[derive(Clone, Copy, Debug, Default, PartialEq, Eq)]
pub struct Played {
    /// 0 where the script was accepted, else the refusal's number.
    pub number: u64,
    /// Of the refused command's first byte; 0 where there is none.
    pub offset: u64,
    /// Log bytes of the records.
    pub written: u64,
    /// Edges counted by the commands that were played, in 64 bits that wrap.
    pub length: u64,
}

impl Played {
    /// The last line that the program prints.
    pub fn last_line(&self) -> String {
        match self.number {
            0 => format!("end {}", self.length),
            number => format!("refused {number} at {}", self.offset),
        }
    }
}

/// A player over the array of numbers, as the exported function is. An error
/// is what document 01 has no place for.
pub trait Player {
    fn play(&mut self, state: &mut [u64], script: &[u8], log: &mut [u8]) -> Result<Played, String>;
}

/// What a player does wrong with an array that is no state: it is refused
/// with 8, and neither the array nor the log is touched.
pub fn not_refused(player: &mut dyn Player, array: &[u64], script: &[u8]) -> Option<String> {
    const FILL: [u8; 16] = [0xa5; 16];
    let (mut words, mut log) = (array.to_vec(), FILL);
    let expected = Played {
        number: 8,
        ..Played::default()
    };
    match player.play(&mut words, script, &mut log) {
        Ok(met) if met == expected => {
            (words != array || log != FILL).then(|| "state or log is changed".into())
        }
        met => Some(format!("{met:?}, not 8")),
    }
}

/// The oracle's player, and the state that it leaves.
pub fn reference(start: &Start, script: &[u8], log: &mut [u8]) -> Result<(Played, State), String> {
    let mut oracle = begun(start);
    let run = model::play(&mut oracle, script, log).map_err(|fault| fault.to_string())?;
    let state = oracle.try_state().map_err(|fault| fault.to_string())?;
    let (number, offset) = match run.end {
        End::Accepted => (0, 0),
        End::Refused { number, offset } => (number.into(), offset as u64),
    };
    let played = Played {
        number,
        offset,
        written: (run.records * RECORD) as u64,
        length: run.length,
    };
    Ok((played, state))
}

fn begun(start: &Start) -> Oracle {
    match start {
        Start::Fresh => Oracle::fresh(),
        Start::Given(state) => Oracle::from_state(state),
    }
}

/// The state that a case begins with.
pub fn first_state(start: &Start) -> State {
    match start {
        Start::Fresh => Oracle::fresh().state(),
        Start::Given(state) => *state,
    }
}

pub fn first_words(start: &Start) -> Words {
    encode(&first_state(start))
}
