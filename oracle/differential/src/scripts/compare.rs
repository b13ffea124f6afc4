//! One script on the oracle and on a player, and the first thing that differs.
use super::player::{Case, Played, Player, first_words, reference};
use crate::{
    compare::{Start, state_fields},
    layout::{LENGTH, Words, decode, encode},
};
use model::{LOG, RECORD, State, line};
use std::fmt;

/// Bytes on both sides of a lent log, which are nobody's to write.
const GUARD: usize = 16;

/// What differs first, and how the run ended on both sides.
#[derive(Clone, Debug)]
pub struct Difference {
    pub field: String,
    pub reference: String,
    pub player: String,
    pub ends: [String; 2],
}

impl fmt::Display for Difference {
    fn fmt(&self, f: &mut fmt::Formatter<'_>) -> fmt::Result {
        write!(
            f,
            "{}: reference {}, player {}",
            self.field, self.reference, self.player
        )
    }
}

/// A run that was the same on both sides.
pub struct Same<'a> {
    pub start: &'a Start,
    pub script: &'a [u8],
    pub log: &'a [u8],
    pub played: Played,
    pub state: &'a State,
}

/// A player and room for both logs.
pub struct Table {
    player: Box<dyn Player>,
    fresh: Words,
    blank: Vec<u8>,
    expected: Vec<u8>,
    met: Vec<u8>,
}

impl Table {
    pub fn new(player: Box<dyn Player>) -> Self {
        Self::filled(player, 0)
    }

    /// With another fill of the log: a byte that happens to be what stood
    /// there shows with one of two fills.
    pub fn filled(player: Box<dyn Player>, turned: u8) -> Self {
        let room = LOG + 2 * GUARD;
        Self {
            player,
            fresh: first_words(&Start::Fresh),
            // No byte is its neighbour's, nor that of the next record.
            blank: (0..room)
                .map(|place| (place * 37 + 0xa5) as u8 ^ turned)
                .collect(),
            expected: vec![0; room],
            met: vec![0; room],
        }
    }

    pub fn play(
        &mut self,
        case: &Case,
        watch: &mut dyn FnMut(&Same),
    ) -> Result<(), Box<Difference>> {
        let words = match &case.start {
            Start::Fresh => self.fresh,
            Start::Given(state) => encode(state),
        };
        self.play_on(&words, case, watch)
    }

    /// The same on an array that holds the case's start, with any numbers in
    /// the places that are not in use. By 8 it stays as it was; otherwise they
    /// are 0 afterwards.
    pub fn play_on(
        &mut self,
        array: &Words,
        case: &Case,
        watch: &mut dyn FnMut(&Same),
    ) -> Result<(), Box<Difference>> {
        let room = case.log + 2 * GUARD;
        let lent = GUARD..GUARD + case.log;
        for log in [&mut self.expected, &mut self.met] {
            log[..room].copy_from_slice(&self.blank[..room]);
        }
        let mut words = *array;
        let expected = reference(&case.start, &case.script, &mut self.expected[lent.clone()]);
        let met = self
            .player
            .play(&mut words, &case.script, &mut self.met[lent.clone()]);
        let (expected, state, met) = match (expected, met) {
            (Ok((expected, state)), Ok(met)) => (expected, state, met),
            (expected, met) => {
                let text =
                    |side: Result<Played, String>| side.map_or_else(|e| e, |p| p.last_line());
                let ends = [text(expected.map(|(played, _)| played)), text(met)];
                return Err(Box::new(Difference {
                    field: "fault".into(),
                    reference: ends[0].clone(),
                    player: ends[1].clone(),
                    ends,
                }));
            }
        };
        let logs = self.expected[..room] == self.met[..room];
        let after = match expected.number {
            8 => *array,
            _ => encode(&state),
        };
        if expected == met && logs && words == after {
            watch(&Same {
                start: &case.start,
                script: &case.script,
                log: &self.expected[lent],
                played: expected,
                state: &state,
            });
            return Ok(());
        }
        Err(Box::new(self.difference(
            case,
            (&expected, &state, &after),
            (&met, &words),
        )))
    }

    fn difference(
        &self,
        case: &Case,
        (expected, state, after): (&Played, &State, &Words),
        (met, words): (&Played, &Words),
    ) -> Difference {
        let ends = [expected.last_line(), met.last_line()];
        let found = |field: String, reference: String, player: String| Difference {
            field,
            reference,
            player,
            ends: ends.clone(),
        };
        let numbers = [
            ("number", expected.number, met.number),
            ("offset", expected.offset, met.offset),
            ("log bytes written", expected.written, met.written),
            ("length", expected.length, met.length),
        ];
        for (field, left, right) in numbers {
            if left != right {
                return found(field.into(), left.to_string(), right.to_string());
            }
        }
        let room = case.log + 2 * GUARD;
        let place = (0..room).find(|place| self.expected[*place] != self.met[*place]);
        if let Some(place) = place {
            let written = GUARD..GUARD + expected.written as usize;
            if written.contains(&place) {
                let number = (place - GUARD) / RECORD;
                let from = GUARD + number * RECORD;
                let text = |log: &[u8]| shown(&log[from..from + RECORD]);
                return found(
                    format!("record {}", number + 1),
                    text(&self.expected),
                    text(&self.met),
                );
            }
            let field = match place.checked_sub(GUARD) {
                Some(place) if place < case.log => format!("untouched log byte {place}"),
                _ => "a byte beside the log".into(),
            };
            let text = |log: &[u8]| format!("{:02X}", log[place]);
            return found(field, text(&self.expected), text(&self.met));
        }
        let (left, right) = (state_fields(state), decode(words).map(|s| state_fields(&s)));
        let right = match right {
            Ok(right) => right,
            // Unless the array was lent so.
            Err(reason) if decode(after).is_ok() => {
                return found("state".into(), "a port".into(), reason);
            }
            Err(_) => left.clone(),
        };
        for (left, right) in left.iter().zip(&right) {
            if left != right {
                let name = format!("state, {}", left.0);
                // Where the kinds of sender differ, so do the names.
                let other = match left.0 == right.0 {
                    true => right.1.clone(),
                    false => format!("{} {}", right.0, right.1),
                };
                return found(name, left.1.clone(), other);
            }
        }
        let place = (0..LENGTH)
            .find(|place| after[*place] != words[*place])
            .expect("nothing else differs");
        found(
            format!("state, place {place}"),
            after[place].to_string(),
            words[place].to_string(),
        )
    }
}

/// A record's line; its bytes where it has none.
fn shown(record: &[u8]) -> String {
    match record {
        [1..=9, _, _, 0..=2, 0 | 1, 0..=8] => line(record),
        _ => record
            .iter()
            .map(|byte| format!("{byte:02X}"))
            .collect::<Vec<_>>()
            .join(" "),
    }
}
