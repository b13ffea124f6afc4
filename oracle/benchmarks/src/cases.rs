//! The cases: where each begins, its script, and the ratios it is to reach.
//! All is fixed, so that two runs measure the same.
use crate::rounds;
use differential::scripts::make::Script;
use model::{Answer, Command, LOG, Oracle, RECORD, SCRIPT, State, sample::Random};

/// What a figure is given for.
#[derive(Clone, Copy, Debug, PartialEq, Eq)]
pub enum Unit {
    /// One wait.
    Wait,
    /// One word sent, received or both.
    Word,
    /// One call, or command of a script.
    Call,
}

impl Unit {
    pub fn name(self) -> &'static str {
        match self {
            Self::Wait => "wait",
            Self::Word => "word",
            Self::Call => "call",
        }
    }
}

/// Adds the commands of one round.
pub type Round = fn(&mut Random, &mut Vec<Command>);

pub struct Plan {
    pub name: &'static str,
    pub unit: Unit,
    /// Brings a fresh port to where the case begins.
    pub setup: fn() -> Vec<Command>,
    pub round: Round,
    /// At most so many rounds; else as many as a script or its log can hold.
    pub most: usize,
    /// Rounds of the shorter of the two scripts whose instructions are counted.
    pub counted: usize,
    /// The most that ours may take over the reference driven by events.
    pub over_events: Option<f64>,
    /// And over the reference stepped; none where no time passes, since there
    /// is nothing to step then.
    pub over_stepped: Option<f64>,
}

/// A script with its beginning, and the same as commands.
pub struct Case {
    pub start: State,
    pub script: Vec<u8>,
    pub commands: Vec<Command>,
    pub units: usize,
}

impl Case {
    /// The halves that its waits ask for.
    pub fn halves(&self) -> u32 {
        let waits = self.commands.iter().filter(|c| c.kind == 3);
        waits.map(|c| c.a).sum()
    }
    /// The cycles that it passes.
    pub fn cycles(&self) -> u32 {
        let cycles = self.commands.iter().filter(|c| matches!(c.kind, 8 | 9));
        cycles.map(|c| c.a).sum()
    }
}

impl Plan {
    /// The whole script.
    pub fn case(&self) -> Case {
        self.of_rounds(self.most)
    }
    pub fn of_rounds(&self, rounds: usize) -> Case {
        let mut port = Oracle::fresh();
        for c in (self.setup)() {
            let answer = port.call(c.kind, c.a, c.b);
            assert!(matches!(answer, Answer::Done(_)), "{}: setup", self.name);
        }
        let start = port.state();
        let (rounds, commands) = self.fill(rounds);
        Case {
            start,
            script: Script::of(&commands).bytes,
            units: match self.unit {
                Unit::Call => commands.len(),
                Unit::Wait | Unit::Word => rounds,
            },
            commands,
        }
    }
    /// Whole rounds only.
    fn fill(&self, most: usize) -> (usize, Vec<Command>) {
        let mut random = Random::new(1);
        let mut commands = Vec::new();
        let mut bytes = 0;
        for round in 0..most {
            let before = commands.len();
            (self.round)(&mut random, &mut commands);
            bytes += Script::of(&commands[before..]).bytes.len();
            if bytes > SCRIPT || commands.len() * RECORD > LOG {
                commands.truncate(before);
                return (round, commands);
            }
        }
        (most, commands)
    }
}

const ANY: usize = usize::MAX;
const HALVES: Option<f64> = Some(0.3);

#[rustfmt::skip]
pub const PLANS: [Plan; 15] = [
    plan("idle wait of 65,535 halves", Unit::Wait, rounds::idle, rounds::wait_long, (256, 1), Some(1.0), HALVES),
    plan("sending, cell 32", Unit::Word, rounds::sender_32, rounds::send_32, (ANY, 64), Some(1.0), HALVES),
    plan("sending, cell 16", Unit::Word, rounds::sender_16, rounds::send_16, (ANY, 64), Some(1.0), HALVES),
    plan("receiving, cell 32", Unit::Word, rounds::receiver_32, rounds::receive_32, (ANY, 64), Some(1.25), HALVES),
    plan("receiving, cell 16", Unit::Word, rounds::receiver_16, rounds::receive_16, (ANY, 64), Some(1.25), HALVES),
    plan("receiving zeros, cell 32", Unit::Word, rounds::receiver_32, rounds::receive_zero_32, (ANY, 64), Some(1.25), HALVES),
    plan("clocked sending", Unit::Word, rounds::clocked_sender, rounds::send_clocked, (ANY, 64), Some(1.0), HALVES),
    plan("clocked receiving", Unit::Word, rounds::clocked_receiver, rounds::receive_clocked, (ANY, 64), Some(1.0), HALVES),
    plan("clocked from outside, both ways", Unit::Word, rounds::clocked_outside, rounds::edges, (ANY, 64), Some(1.0), None),
    plan("idle for 65,535 cycles", Unit::Wait, rounds::idle, rounds::cycles_long, (256, 1), Some(1.25), HALVES),
    plan("sending in cycles", Unit::Word, rounds::sender_cycles, rounds::send_cycles, (ANY, 64), Some(1.25), HALVES),
    plan("receiving in cycles", Unit::Word, rounds::receiver_cycles, rounds::receive_cycles, (ANY, 64), Some(1.25), HALVES),
    plan("register reads", Unit::Call, rounds::running, rounds::reads, (ANY, 64), Some(1.0), None),
    plan("register writes", Unit::Call, rounds::running, rounds::writes, (ANY, 64), Some(1.0), None),
    plan("mixed script", Unit::Call, rounds::idle, rounds::mixed, (ANY, 5), None, HALVES),
];

/// `most` and `counted` are the pair.
#[rustfmt::skip]
const fn plan(
    name: &'static str, unit: Unit, setup: fn() -> Vec<Command>, round: Round,
    (most, counted): (usize, usize), over_events: Option<f64>, over_stepped: Option<f64>,
) -> Plan {
    Plan { name, unit, setup, round, most, counted, over_events, over_stepped }
}

/// The longest script: power, then waits of 65,535 halves to its last byte
/// but two. The half count stays below its limit.
pub fn longest() -> Vec<u8> {
    let mut commands = rounds::idle();
    commands.resize(4096, rounds::wait(65_535));
    Script::of(&commands).bytes
}
