//! Scripts: numbers, commands, the player with its log, and the lines that
//! the program prints. All from documents 01 and 02.
use crate::field_test::field_test;
use crate::oracle::{Fault, Oracle};
use crate::rules::{late_refusal, ranges};

/// Log bytes of one record.
pub const RECORD: usize = 6;
/// The longest script that the program reads.
pub const SCRIPT: usize = 16_384;
/// The log that the program lends.
pub const LOG: usize = 40_960;

#[derive(Clone, Copy, Debug, PartialEq, Eq)]
pub struct Command {
    pub kind: u32,
    pub a: u32,
    pub b: u32,
}

/// A command read, and where the next begins; or a refusal's number.
pub type Decoded = Result<(Command, usize), u8>;

/// How a run ended.
#[derive(Clone, Copy, Debug, PartialEq, Eq)]
pub enum End {
    Accepted,
    Refused { number: u8, offset: usize },
}

#[derive(Clone, Copy, Debug, PartialEq, Eq)]
pub struct Run {
    pub records: usize,
    /// The edges of the clock that the commands counted, across resets, in 64
    /// bits that wrap; at a refusal those of the commands before.
    pub length: u64,
    pub end: End,
}

impl Run {
    /// The last line that the program prints.
    pub fn last_line(&self) -> String {
        match self.end {
            End::Accepted => format!("end {}", self.length),
            End::Refused { number, offset } => format!("refused {number} at {offset}"),
        }
    }
}

/// One number: seven bits a byte, low first. Only two bytes can break it: a
/// zero one after the first (not shortest), and a fifth above 15, whose bits
/// pass 32 or which announces a sixth.
fn number(script: &[u8], at: &mut usize) -> Result<u32, u8> {
    let mut value = 0;
    for place in 0..5 {
        let byte = *script.get(*at).ok_or(5)?;
        *at += 1;
        if (place > 0 && byte == 0) || (place == 4 && byte > 15) {
            return Err(6);
        }
        value |= u32::from(byte & 0x7f) << (7 * place);
        if byte & 0x80 == 0 {
            break;
        }
    }
    Ok(value)
}

/// The command at `at`. Each number is tested as it is read.
pub fn decode(script: &[u8], mut at: usize) -> Decoded {
    let kind = number(script, &mut at)?;
    let most = ranges(kind).ok_or(7)?;
    let mut operands = [0; 2];
    for (operand, most) in operands.iter_mut().zip(most) {
        *operand = number(script, &mut at)?;
        if *operand > *most {
            return Err(2);
        }
    }
    let [a, b] = operands;
    Ok((Command { kind, a, b }, at))
}

/// The kinds of the commands that can be read.
fn kinds(script: &[u8]) -> impl Iterator<Item = u32> {
    let mut at = 0;
    std::iter::from_fn(move || {
        let (command, next) = decode(script, at).ok()?;
        at = next;
        Some(command.kind)
    })
}

/// What can be read of a script, and where that ends.
pub fn commands(script: &[u8]) -> (Vec<Command>, usize) {
    let (mut commands, mut at) = (Vec::new(), 0);
    while let Ok((command, next)) = decode(script, at) {
        commands.push(command);
        at = next;
    }
    (commands, at)
}

/// Play a script. The log keeps the records of the commands before a refusal.
pub fn play(oracle: &mut Oracle, script: &[u8], log: &mut [u8]) -> Result<Run, Fault> {
    oracle.prepare(kinds(script))?;
    let mut state = oracle.try_state()?;
    let mut at = 0;
    let mut records = 0;
    let before = oracle.counted();
    let ended = |oracle: &Oracle, records, end| {
        Ok(Run {
            records,
            length: oracle.counted().wrapping_sub(before),
            end,
        })
    };
    let refused = |oracle: &Oracle, records, number, offset| {
        ended(oracle, records, End::Refused { number, offset })
    };
    if field_test(&state).is_err() {
        return refused(oracle, records, 8, 0);
    }
    let mut log = log.chunks_exact_mut(RECORD);
    while at < script.len() {
        let Some(record) = log.next() else {
            return refused(oracle, records, 9, at);
        };
        let (Command { kind, a, b }, next) = match decode(script, at) {
            Ok(read) => read,
            Err(number) => return refused(oracle, records, number, at),
        };
        if let Some(number) = late_refusal(&state, kind, a, b) {
            return refused(oracle, records, number, at);
        }
        let answer = oracle.accepted(&state, kind, a, b)?;
        record.copy_from_slice(&[
            kind as u8,
            answer,
            oracle.ssr(),
            oracle.level(),
            oracle.interrupt().into(),
            oracle.cause(),
        ]);
        state = oracle.try_state()?;
        records += 1;
        at = next;
    }
    ended(oracle, records, End::Accepted)
}

/// A record as the program prints it.
pub fn line(record: &[u8]) -> String {
    let level = match record[3] {
        2 => "-".into(),
        driven => driven.to_string(),
    };
    format!(
        "{:X} {:02X} {:02X} {level} {} {}",
        record[0], record[1], record[2], record[4], record[5]
    )
}

/// Bytes from hexadecimal text, as the documents write scripts.
pub fn bytes(text: &str) -> Vec<u8> {
    text.split_whitespace()
        .map(|two| u8::from_str_radix(two, 16).unwrap_or_else(|_| panic!("{two} is no hex byte")))
        .collect()
}
