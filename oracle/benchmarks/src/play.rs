//! The reference's players: the one that does what `sci3_play` does, from a
//! script's bytes to the log; a bare one over commands read beforehand; and
//! the calls alone.
use crate::port::{Driven, Reference};
use model::{CYCLES, Command, LIMIT, RECORD, decode, registers::IRCR};
use reference::Sci;

/// A script's bytes: numbers read, ranges and refusals tested, records
/// written, edges counted. No script of a benchmark is refused, so a refusal is
/// an error. Answered are the log bytes written and the run's length.
pub fn script<S: Driven>(
    port: &mut Reference<S>,
    bytes: &[u8],
    log: &mut [u8],
) -> Result<(usize, u64), String> {
    let mut at = 0;
    let mut records = log.chunks_exact_mut(RECORD);
    let mut written = 0;
    let mut length = 0_u64;
    while at < bytes.len() {
        let record = records.next().ok_or_else(|| refused(9, at))?;
        let (command, next) = decode(bytes, at).map_err(|number| refused(number, at))?;
        if let Some(number) = refusal(port, command) {
            return Err(refused(number, at));
        }
        let before = port.half();
        let answer = port.call(command).map_err(|e| format!("{e:?} at {at}"))?;
        record.copy_from_slice(&port.record(command.kind, answer));
        // A reset puts the half count to 0 and counts no edge.
        length = length.wrapping_add(port.half().saturating_sub(before));
        at = next;
        written += RECORD;
    }
    Ok((written, length))
}

/// Commands that are known to be accepted; only the records are made.
pub fn list<S: Driven>(
    port: &mut Reference<S>,
    commands: &[Command],
    log: &mut [u8],
) -> Result<usize, String> {
    for (command, record) in commands.iter().zip(log.chunks_exact_mut(RECORD)) {
        let answer = port.call(*command).map_err(|e| format!("{e:?}"))?;
        record.copy_from_slice(&port.record(command.kind, answer));
    }
    Ok(commands.len() * RECORD)
}

#[cold]
fn refused(number: u8, at: usize) -> String {
    format!("refused {number} at {at}")
}

/// Rows 1, 3, 10 and 4; 2 and the rest are the decoder's.
#[inline]
fn refusal<S: Driven>(port: &Reference<S>, Command { kind, a, b }: Command) -> Option<u8> {
    match kind {
        1 | 2 if !Sci::handles(a as u16) => Some(1),
        2 if a == IRCR && b & 0x80 != 0 => Some(3),
        3 if port.counting() && port.half() + u64::from(a) > LIMIT.into() => Some(4),
        // At the limit the phase would decide; no benchmark goes there.
        5 if port.half() >= LIMIT.into() => Some(4),
        8 | 9 if port.totals()[kind as usize - 8] + u64::from(a) > CYCLES => Some(10),
        // A cycle counts one half at most; no benchmark goes near.
        8 | 9 if port.half() + u64::from(a) > LIMIT.into() => Some(4),
        _ => None,
    }
}

/// Direct calls: the methods alone, and the answer of each.
pub fn calls<S: Driven>(
    port: &mut Reference<S>,
    commands: &[Command],
    log: &mut [u8],
) -> Result<usize, String> {
    for (command, answer) in commands.iter().zip(log) {
        *answer = port.call(*command).map_err(|e| format!("{e:?}"))?;
    }
    Ok(commands.len())
}
