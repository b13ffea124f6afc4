//! Every word: for each SMR, both cell lengths of SEMR and each value, the word
//! that a port's sender loads beside the one that the reference's frame.rs
//! gives.
use crate::port::Port;
use model::{
    Answer, Character, Command, State, Tx,
    registers::{SCR, SEMR, SMR, TDR},
};
use reference::Sci;

/// SEMR without and with the one bit that a format heeds.
const SEMRS: [u8; 2] = [0, 8];
/// So many there are.
pub const WORDS: u64 = 256 * SEMRS.len() as u64 * 256;
/// No mark is longer: twelve cells, and the rest of the cell before.
const MARK: u32 = 13 * 32;

#[derive(Default)]
pub struct Outcome {
    /// Words loaded and compared.
    pub compared: u64,
    /// Those of them that have a parity cell.
    pub parity: u64,
    /// What differs, or was not loaded.
    pub wrong: Vec<String>,
}

impl Outcome {
    /// Every word was compared, and none differs.
    pub fn good(&self) -> bool {
        self.compared == WORDS && self.wrong.is_empty()
    }
}

fn call(port: &mut dyn Port, kind: u32, a: u32, b: u32) -> Result<(), String> {
    match port.call(Command { kind, a, b })? {
        Answer::Done(_) => Ok(()),
        Answer::Refused(number) => Err(format!("kind {kind} is refused with {number}")),
    }
}

/// A port with this SMR and SEMR whose sender is on, its mark over, and has
/// nothing to send.
fn idle(port: &mut dyn Port, smr: u8, semr: u8) -> Result<State, String> {
    port.fresh();
    call(port, 6, 3, 0)?;
    call(port, 2, SMR, smr.into())?;
    call(port, 2, SEMR, semr.into())?;
    call(port, 2, SCR, 0x20)?;
    call(port, 3, MARK, 0)?;
    port.state()
}

fn loaded(state: &State) -> Option<Character> {
    match state.tx? {
        Tx::Blocked { character } | Tx::Start { character, .. } | Tx::Data { character, .. } => {
            Some(character)
        }
        Tx::Tail { loaded, .. } => loaded,
        Tx::Mark { .. } => None,
    }
}

/// What the sender loads when TDR is written.
fn sent(port: &mut dyn Port, idle: &State, value: u8) -> Result<Character, String> {
    port.set(idle);
    call(port, 2, TDR, value.into())?;
    loaded(&port.state()?).ok_or("no word is loaded".into())
}

/// All words of one SMR and SEMR.
fn of_format(port: &mut dyn Port, smr: u8, semr: u8, outcome: &mut Outcome) {
    let idle = idle(port, smr, semr);
    for value in 0..=255 {
        let met = idle.clone().and_then(|idle| sent(port, &idle, value));
        let expected = Sci::oracle_word(smr, semr, value);
        let what = format!("SMR {smr:02X}, SEMR {semr:02X}, value {value:02X}");
        match met {
            Ok(character) => {
                outcome.compared += 1;
                outcome.parity += u64::from(character.format.parity);
                if character.word != expected {
                    let text = format!("{what}: {:X}, reference {expected:X}", character.word);
                    outcome.wrong.push(text);
                }
            }
            Err(fault) => outcome.wrong.push(format!("{what}: {fault}")),
        }
    }
}

pub fn all(port: &mut dyn Port) -> Outcome {
    let mut outcome = Outcome::default();
    for smr in 0..=255 {
        for semr in SEMRS {
            of_format(port, smr, semr, &mut outcome);
        }
    }
    outcome
}
