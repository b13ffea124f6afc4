//! What is measured. A side begins where its case begins, runs the whole
//! script in one go, and shows where it ended.
use crate::{
    cases::Case,
    play,
    port::{Counted, Driven, Pace, Reference},
};
use differential::layout::{MOST, Words, decode, encode, read};
use model::{Command, RECORD, State};
use reference::Sci;

/// Where a run ended: the state, and the log of its records or answers.
#[derive(Clone, Debug, PartialEq, Eq)]
pub struct Outcome {
    pub state: State,
    pub log: Vec<u8>,
}

pub trait Side {
    /// Back to the beginning; never timed.
    fn reset(&mut self);
    /// What is timed.
    fn run(&mut self);
    /// Where the run ended, or what went wrong in it.
    fn outcome(&self) -> Result<Outcome, String>;
    /// The run's length, of a side that plays a script.
    fn length(&self) -> Option<u64> {
        None
    }
}

/// The sides, by what they are given and what they hand back.
#[derive(Clone, Copy, Debug, PartialEq, Eq)]
pub enum Kind {
    /// Ours: `sci3_play`, from the script's bytes to the log.
    Player,
    /// The reference driven by events, from the script's bytes to the log.
    Events,
    /// The same over commands read beforehand, with nothing to refuse.
    List,
    /// As `Events`, stepped half by half, or cycle by cycle.
    Stepped,
    /// Ours: `sci3_call`, one for each command, over the array of numbers.
    Calls,
    /// The reference's own methods, one for each command, driven by events.
    Methods,
    /// The reference behind the same array: read and tested before each call,
    /// written after it.
    Array,
}

/// Those of a script, and those of single calls; ours is the first.
pub const PLAYING: [Kind; 4] = [Kind::Player, Kind::Events, Kind::List, Kind::Stepped];
pub const CALLING: [Kind; 3] = [Kind::Calls, Kind::Methods, Kind::Array];

/// All of a group, or the one side of a name.
pub fn named(name: &str) -> Option<Vec<Kind>> {
    let place = [
        "player", "events", "list", "stepped", "calls", "methods", "array",
    ]
    .iter()
    .position(|known| *known == name);
    match name {
        "playing" => Some(PLAYING.to_vec()),
        "calling" => Some(CALLING.to_vec()),
        _ => Some(vec![*PLAYING.iter().chain(&CALLING).nth(place?)?]),
    }
}

/// None where the side is ours and the port is not linked. A case of cycles
/// has the reference on the counters.
pub fn side<'a>(kind: Kind, case: &'a Case) -> Option<Box<dyn Side + 'a>> {
    match kind {
        Kind::Player => ours(case, true),
        Kind::Calls => ours(case, false),
        _ if case.cycles() > 0 => Some(of_reference::<Counted>(kind, case)),
        _ => Some(of_reference::<Sci>(kind, case)),
    }
}

fn of_reference<'a, S: Driven>(kind: Kind, case: &'a Case) -> Box<dyn Side + 'a> {
    let (pace, task) = match kind {
        Kind::Stepped => (Pace::Steps, Task::Script(&case.script)),
        Kind::List => (Pace::Events, Task::List(&case.commands)),
        Kind::Methods => (Pace::Events, Task::Calls(&case.commands)),
        Kind::Array => return Box::new(Array::<S>::new(case)),
        _ => (Pace::Events, Task::Script(&case.script)),
    };
    Box::new(Playing::<S>::new(case, pace, task))
}

#[cfg(feature = "player")]
fn ours<'a>(case: &'a Case, player: bool) -> Option<Box<dyn Side + 'a>> {
    Some(if player {
        Box::new(crate::ours::Player::new(case))
    } else {
        Box::new(crate::ours::Calls::new(case))
    })
}
#[cfg(not(feature = "player"))]
fn ours<'a>(_: &'a Case, _: bool) -> Option<Box<dyn Side + 'a>> {
    None
}

/// What the reference is given.
enum Task<'a> {
    Script(&'a [u8]),
    List(&'a [Command]),
    Calls(&'a [Command]),
}

struct Playing<'a, S: Driven> {
    task: Task<'a>,
    start: Reference<S>,
    port: Reference<S>,
    log: Vec<u8>,
    length: u64,
    ended: Result<usize, String>,
}

impl<'a, S: Driven> Playing<'a, S> {
    fn new(case: &Case, pace: Pace, task: Task<'a>) -> Self {
        let start = Reference::at(&case.start, pace);
        let record = if matches!(task, Task::Calls(_)) {
            1
        } else {
            RECORD
        };
        Self {
            task,
            port: start.clone(),
            start,
            log: vec![0; case.commands.len() * record],
            length: 0,
            ended: Ok(0),
        }
    }
}

impl<S: Driven> Side for Playing<'_, S> {
    fn reset(&mut self) {
        self.port.clone_from(&self.start);
        self.log.fill(0);
    }
    fn run(&mut self) {
        let (port, log) = (&mut self.port, &mut self.log[..]);
        self.ended = match self.task {
            Task::Script(bytes) => play::script(port, bytes, log).map(|(written, length)| {
                self.length = length;
                written
            }),
            Task::List(commands) => play::list(port, commands, log),
            Task::Calls(commands) => play::calls(port, commands, log),
        };
    }
    fn outcome(&self) -> Result<Outcome, String> {
        outcome(&self.ended, self.port.state()?, &self.log)
    }
    fn length(&self) -> Option<u64> {
        matches!(self.task, Task::Script(_)).then_some(self.length)
    }
}

/// The whole log must have been written.
pub fn outcome(ended: &Result<usize, String>, state: State, log: &[u8]) -> Result<Outcome, String> {
    match ended {
        Ok(written) if *written == log.len() => Ok(Outcome {
            state,
            log: log.to_vec(),
        }),
        Ok(written) => Err(format!("{written} of {} log bytes written", log.len())),
        Err(what) => Err(what.clone()),
    }
}

struct Array<'a, S: Driven> {
    commands: &'a [Command],
    port: Reference<S>,
    start: Words,
    words: Words,
    answers: Vec<u8>,
    ended: Result<usize, String>,
}

impl<'a, S: Driven> Array<'a, S> {
    fn new(case: &'a Case) -> Self {
        let start = encode(&case.start);
        Self {
            commands: &case.commands,
            port: Reference::at(&case.start, Pace::Events),
            start,
            words: start,
            answers: vec![0; case.commands.len()],
            ended: Ok(0),
        }
    }
    fn call(port: &mut Reference<S>, words: &mut Words, c: Command) -> Result<u8, String> {
        // As ours: no number above its place's greatest, and places that are
        // not in use are not looked at.
        if words.iter().zip(&MOST).any(|(word, most)| word > most) {
            return Err("the array is no state".into());
        }
        let state = read(words);
        if let Some(number) = model::refusal(&state, c.kind, c.a, c.b) {
            return Err(format!("refused {number}"));
        }
        port.set(&state);
        let answer = port.call(c).map_err(|e| format!("{e:?}"))?;
        *words = encode(&port.state()?);
        Ok(answer)
    }
}

impl<S: Driven> Side for Array<'_, S> {
    fn reset(&mut self) {
        self.words = self.start;
        self.answers.fill(0);
    }
    fn run(&mut self) {
        self.ended = (|| {
            for (c, answer) in self.commands.iter().zip(&mut self.answers) {
                *answer = Self::call(&mut self.port, &mut self.words, *c)?;
            }
            Ok(self.answers.len())
        })();
    }
    fn outcome(&self) -> Result<Outcome, String> {
        outcome(&self.ended, decode(&self.words)?, &self.answers)
    }
}
