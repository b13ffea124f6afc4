//! The fuzzer's inputs. Any bytes are one: the first says which parts follow,
//! and bytes that are missing are 0. A plain script is a 0 and the script.
//!
//! ```text
//! bit 0  a script that is played first, from a fresh port: its length in one
//!        byte, then its bytes
//! bit 1  the half count, and all halves with it, are moved below the limit by
//!        so much: two bytes
//! bit 2  numbers put into the array of the state: how many in one byte; for
//!        each its place in the low six bits of a byte, whose high two give
//!        the number's length 1, 2, 4 or 8, and the number. A place behind
//!        the array makes it longer, so that it is no state
//! bit 3  the log's length: two bytes; else the log is never full
//! bit 4  the log's fill is turned
//! bit 5  the commands are made as direct calls too, and the nine bytes behind
//!        them are the kind and the operands of one more
//! bit 6  waits may be long
//! rest   the script
//! ```
//!
//! Numbers of several bytes have their low byte first.
use crate::layout::{LENGTH, Words};
use model::{LOG, RECORD, decode};

const EARLIER: u8 = 1;
const NEAR: u8 = 2;
const NUMBERS: u8 = 4;
const LENT: u8 = 8;
const TURNED: u8 = 16;
const CALLS: u8 = 32;
const LONG: u8 = 64;

/// Places that an input can name.
const PLACES: u8 = 64;

/// Halves of all waits of a script at most: mark and three words, or one of
/// the longest waits and some words.
pub const SHORT: u32 = 1_500;
pub const LONGEST: u32 = 70_000;
/// So many cycles count as a half here.
pub const CYCLES: u32 = 2;

#[derive(Clone, Debug, Default, PartialEq, Eq)]
pub struct Input {
    pub earlier: Option<Vec<u8>>,
    /// How far below the limit the half count is put.
    pub distance: Option<u16>,
    /// Places of the array and what is put there.
    pub numbers: Vec<(u8, u64)>,
    pub log: Option<u16>,
    pub turned: bool,
    pub calls: bool,
    pub long: bool,
    pub script: Vec<u8>,
}

/// Takes bytes from the front.
struct Bytes<'a>(&'a [u8]);

impl Bytes<'_> {
    fn some(&mut self, count: usize) -> &[u8] {
        let (front, rest) = self.0.split_at(count.min(self.0.len()));
        self.0 = rest;
        front
    }
    fn number(&mut self, length: usize) -> u64 {
        let low_first = self.some(length).iter().enumerate();
        low_first.fold(0, |value, (at, byte)| value | u64::from(*byte) << (8 * at))
    }
    fn byte(&mut self) -> u8 {
        self.number(1) as u8
    }
}

impl Input {
    pub fn read(bytes: &[u8]) -> Self {
        let mut bytes = Bytes(bytes);
        let parts = bytes.byte();
        let has = |part| parts & part != 0;
        let mut input = Self {
            turned: has(TURNED),
            calls: has(CALLS),
            long: has(LONG),
            ..Self::default()
        };
        if has(EARLIER) {
            let length = bytes.byte();
            input.earlier = Some(bytes.some(length.into()).to_vec());
        }
        input.distance = has(NEAR).then(|| bytes.number(2) as u16);
        if has(NUMBERS) {
            for _ in 0..bytes.byte() {
                let place = bytes.byte();
                let number = bytes.number(1 << (place / PLACES));
                input.numbers.push((place % PLACES, number));
            }
        }
        input.log = has(LENT).then(|| bytes.number(2) as u16);
        input.script = bytes.0.to_vec();
        input
    }

    /// The bytes that read as this input.
    pub fn write(&self) -> Vec<u8> {
        let bit = |part, set: bool| if set { part } else { 0 };
        let mut bytes = vec![
            bit(EARLIER, self.earlier.is_some())
                | bit(NEAR, self.distance.is_some())
                | bit(NUMBERS, !self.numbers.is_empty())
                | bit(LENT, self.log.is_some())
                | bit(TURNED, self.turned)
                | bit(CALLS, self.calls)
                | bit(LONG, self.long),
        ];
        if let Some(earlier) = &self.earlier {
            bytes.push(earlier.len().try_into().expect("at most 255 bytes"));
            bytes.extend_from_slice(earlier);
        }
        bytes.extend(self.distance.into_iter().flat_map(u16::to_le_bytes));
        if !self.numbers.is_empty() {
            bytes.push(self.numbers.len().try_into().expect("at most 255"));
        }
        for (place, number) in &self.numbers {
            let width = match number {
                0..0x100 => 0,
                0x100..0x1_0000 => 1,
                0x1_0000..0x1_0000_0000 => 2,
                _ => 3,
            };
            bytes.push(place + width * PLACES);
            bytes.extend_from_slice(&number.to_le_bytes()[..1 << width]);
        }
        bytes.extend(self.log.into_iter().flat_map(u16::to_le_bytes));
        bytes.extend_from_slice(&self.script);
        bytes
    }

    /// The array with the input's numbers put into it.
    pub fn array(&self, words: &Words) -> Vec<u64> {
        let mut array = words.to_vec();
        for (place, number) in &self.numbers {
            let place = usize::from(*place);
            if place >= array.len() {
                array.resize(place + 1, 0);
            }
            array[place] = *number;
        }
        array
    }

    /// The numbers that make one array of another.
    pub fn numbers(from: &Words, to: &Words) -> Vec<(u8, u64)> {
        let differ = (0..LENGTH).filter(|place| from[*place] != to[*place]);
        differ.map(|place| (place as u8, to[place])).collect()
    }

    pub fn log_length(&self) -> usize {
        match self.log {
            Some(length) => usize::from(length) % (LOG + 1),
            None => roomy(&self.script),
        }
    }
}

/// A log that no script of this length fills.
pub fn roomy(script: &[u8]) -> usize {
    (script.len() * RECORD).min(LOG)
}

/// The script up to the wait or the cycles by which its halves would pass the
/// most: the reference makes each half and is asked at each cycle, and a slow
/// input is dear.
pub fn bounded(script: &[u8], long: bool) -> &[u8] {
    let most = if long { LONGEST } else { SHORT };
    let (mut at, mut halves) = (0, 0);
    while let Ok((c, next)) = decode(script, at) {
        halves += match c.kind {
            3 => c.a,
            8 | 9 => c.a / CYCLES,
            _ => 0,
        };
        if halves > most {
            return &script[..at];
        }
        at = next;
    }
    script
}
