//! The proved port, through its C functions. Its state is the array of
//! `layout`; an answer below 256 is an accepted call's, and 256 more than a
//! refusal's number is that refusal.
use crate::{
    layout::{LENGTH, MOST, Words, decode, encode, no_states, read, within},
    port::{Pins, Port},
};
use model::{Answer, ClockDrive, Command, State};

// A lent array is its address and its length.
unsafe extern "C" {
    fn sci3_fresh(state: *mut u64, length: usize) -> u64;
    fn sci3_call(state: *mut u64, length: usize, kind: u32, a: u32, b: u32, cause: *mut u64)
    -> u64;
    fn sci3_pins(state: *const u64, length: usize) -> u64;
    fn sci3_interrupt(state: *const u64, length: usize) -> u64;
}

const REFUSED: u64 = 256;

// Safe: address and length are those of one array, lent for the call only.
fn fresh(words: &mut [u64]) -> u64 {
    unsafe { sci3_fresh(words.as_mut_ptr(), words.len()) }
}
/// `sci3_call` as it is: the answer, and the number of the cause.
pub fn call(words: &mut [u64], c: Command) -> (u64, u64) {
    // A number that no call gives, so that one not written shows.
    let mut cause = u64::MAX;
    let answer = unsafe {
        sci3_call(
            words.as_mut_ptr(),
            words.len(),
            c.kind,
            c.a,
            c.b,
            &mut cause,
        )
    };
    (answer, cause)
}
fn pins(words: &[u64]) -> u64 {
    unsafe { sci3_pins(words.as_ptr(), words.len()) }
}
fn interrupt(words: &[u64]) -> u64 {
    unsafe { sci3_interrupt(words.as_ptr(), words.len()) }
}

pub struct CapiPort {
    words: Words,
    /// What `sci3_fresh` answered, if not 0.
    refused: Option<u64>,
    cause: u64,
}

impl Default for CapiPort {
    fn default() -> Self {
        let mut port = Self {
            words: [0; LENGTH],
            refused: None,
            cause: 0,
        };
        port.fresh();
        port
    }
}

impl Port for CapiPort {
    fn fresh(&mut self) {
        // Whatever the array held before.
        self.words = MOST;
        self.refused = Some(fresh(&mut self.words)).filter(|answer| *answer != 0);
        self.cause = 0;
    }
    fn set(&mut self, state: &State) {
        self.words = encode(state);
        self.refused = None;
        self.cause = 0;
    }
    fn state(&self) -> Result<State, String> {
        match self.refused {
            Some(answer) => Err(format!("sci3_fresh answers {answer}")),
            None => decode(&self.words),
        }
    }
    fn call(&mut self, c: Command) -> Result<Answer, String> {
        let before = self.words;
        let answer;
        (answer, self.cause) = call(&mut self.words, c);
        if let Ok(value) = u8::try_from(answer) {
            return Ok(Answer::Done(value));
        }
        match answer - REFUSED {
            number @ 1..=10 if self.words == before => Ok(Answer::Refused(number as u8)),
            number @ 1..=10 => Err(format!("refusal {number} has changed the array")),
            _ => Err(format!("sci3_call answers {answer}")),
        }
    }
    fn pins(&self) -> Result<Pins, String> {
        let number = pins(&self.words);
        if number >> 2 & 3 == 3 || number > 31 {
            return Err(format!("sci3_pins answers {number}"));
        }
        Ok(Pins {
            level: (number >> 2 & 3) as u8,
            clock: match number & 3 {
                0 => ClockDrive::Free,
                1 => ClockDrive::Floating,
                2 => ClockDrive::Low,
                _ => ClockDrive::High,
            },
            receive: number >> 4 != 0,
        })
    }
    fn interrupt(&self) -> Result<bool, String> {
        match interrupt(&self.words) {
            0 => Ok(false),
            1 => Ok(true),
            other => Err(format!("sci3_interrupt answers {other}")),
        }
    }
    fn cause(&self) -> u64 {
        self.cause
    }
}

/// Arrays that are no state: each export refuses them with 8 and changes
/// nothing. How many were tried, and what differs.
pub fn arrays() -> (u64, Vec<String>) {
    let mut wrong = Vec::new();
    let mut words = [0; LENGTH];
    fresh(&mut words);
    let all = no_states(&words);
    for (what, array) in &all {
        let mut lent = array.clone();
        let mut answers: Vec<(&str, u64)> = Vec::new();
        for kind in 0..=10 {
            let c = Command { kind, a: 0, b: 0 };
            let (answer, cause) = call(&mut lent, c);
            answers.push(("sci3_call", answer));
            if cause != 0 {
                wrong.push(format!("{what}: sci3_call tells cause {cause}, not 0"));
            }
        }
        answers.push(("sci3_pins", pins(&lent)));
        answers.push(("sci3_interrupt", interrupt(&lent)));
        // It writes all numbers and looks at the length alone.
        if array.len() != LENGTH {
            answers.push(("sci3_fresh", fresh(&mut lent)));
        }
        for (name, answer) in answers {
            if answer != REFUSED + 8 {
                wrong.push(format!("{what}: {name} answers {answer}, not 264"));
            }
        }
        if lent != *array {
            wrong.push(format!("{what}: the array is changed"));
        }
    }
    (all.len() as u64, wrong)
}

/// Places not in use are not looked at: with other numbers there every call
/// gives the same. How many were tried, and what differs.
pub fn unused(states: &[(State, Command)]) -> (u64, Vec<String>) {
    let mut wrong = Vec::new();
    let mut tried = 0;
    for (state, c) in states {
        let plain = encode(state);
        for place in 17..51 {
            let mut words = plain;
            words[place] = MOST[place];
            // In use, if another number there is another state.
            let used = within(&words).is_none_or(|words| read(&words) != *state);
            if used || words == plain {
                continue;
            }
            tried += 1;
            let mut expected = plain;
            let answer = call(&mut expected, *c);
            let (shown, plainly) = (
                (pins(&words), interrupt(&words)),
                (pins(&plain), interrupt(&plain)),
            );
            let kept = words;
            let met = call(&mut words, *c);
            if answer.0 >= REFUSED {
                expected = kept;
            }
            if (met, words, shown) != (answer, expected, plainly) {
                wrong.push(format!("place {place} is not in use and counts: {state:?}"));
            }
        }
    }
    (tried, wrong)
}
