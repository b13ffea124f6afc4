//! The proved port as a side: its player, and its direct calls.
use crate::{
    cases::Case,
    sides::{Outcome, Side, outcome},
};
use differential::{
    capi,
    layout::{Words, decode, encode},
    scripts::{player::Player as _, proved::ProvedPlayer},
};
use model::{Command, RECORD};

pub struct Player<'a> {
    script: &'a [u8],
    start: Words,
    words: Words,
    log: Vec<u8>,
    length: u64,
    ended: Result<usize, String>,
}

impl<'a> Player<'a> {
    pub fn new(case: &'a Case) -> Self {
        let start = encode(&case.start);
        Self {
            script: &case.script,
            start,
            words: start,
            log: vec![0; case.commands.len() * RECORD],
            length: 0,
            ended: Ok(0),
        }
    }
}

impl Side for Player<'_> {
    fn reset(&mut self) {
        self.words = self.start;
        self.log.fill(0);
    }
    fn run(&mut self) {
        let played = ProvedPlayer.play(&mut self.words, self.script, &mut self.log);
        self.ended = played.and_then(|played| match played.number {
            0 => {
                self.length = played.length;
                Ok(played.written as usize)
            }
            number => Err(format!("refused {number} at {}", played.offset)),
        });
    }
    fn outcome(&self) -> Result<Outcome, String> {
        outcome(&self.ended, decode(&self.words)?, &self.log)
    }
    fn length(&self) -> Option<u64> {
        Some(self.length)
    }
}

pub struct Calls<'a> {
    commands: &'a [Command],
    start: Words,
    words: Words,
    answers: Vec<u8>,
    ended: Result<usize, String>,
}

impl<'a> Calls<'a> {
    pub fn new(case: &'a Case) -> Self {
        let start = encode(&case.start);
        Self {
            commands: &case.commands,
            start,
            words: start,
            answers: vec![0; case.commands.len()],
            ended: Ok(0),
        }
    }
}

impl Side for Calls<'_> {
    fn reset(&mut self) {
        self.words = self.start;
        self.answers.fill(0);
    }
    fn run(&mut self) {
        for (at, (c, answer)) in self.commands.iter().zip(&mut self.answers).enumerate() {
            match u8::try_from(capi::call(&mut self.words, *c).0) {
                Ok(value) => *answer = value,
                Err(_) => {
                    self.ended = Err(format!("call {at} was refused"));
                    return;
                }
            }
        }
        self.ended = Ok(self.answers.len());
    }
    fn outcome(&self) -> Result<Outcome, String> {
        outcome(&self.ended, decode(&self.words)?, &self.answers)
    }
}
