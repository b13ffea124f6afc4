//! The replay list: fixed cases on fresh ports, and what the oracle answers
//! to each; then writes (`writes`). A program of the proved port reads the cases
//! and must print the same, so that a replay needs neither the reference nor
//! this code.
//!
//! Cases: for each the log's length and the script's, two bytes each, low
//! first, and the script. Printout: for each case its records' lines, the last
//! line, and `=` with the sum of log and state; at the end the number of cases.
use super::{
    make::{self, BYTES, DAMAGES, MADE, Script, shortest},
    player::{Played, reference},
    writes::{self, Write},
};
use crate::{
    compare::Start,
    layout::{Words, encode},
};
use model::{
    Command, LOG, RECORD, SCRIPT, bytes, commands, document, line,
    registers::{RDR, SCR, SMR, SPCR, SSR, TDR},
    sample::Random,
};
use std::fmt::Write as _;

/// What a log or a buffer holds before.
pub const FILL: u8 = 0xaa;
/// Bytes that the program reads.
pub const LIST: usize = 294_912;
const SEED: u64 = 0x5c13_0001;

pub struct Item {
    pub log: usize,
    pub script: Vec<u8>,
}

fn call(kind: u32, a: u32, b: u32) -> Command {
    Command { kind, a, b }
}

/// Power on, a format, both sides on, a byte to send, a start cell: work for
/// every kind, one command after the other.
fn work() -> Vec<Command> {
    vec![
        call(6, 3, 0),
        call(2, SPCR, 0x10),
        call(2, SMR, 0x20),
        call(2, SCR, 0xf0),
        call(3, 400, 0),
        call(2, TDR, 0x35),
        call(4, 0, 0),
        call(3, 200, 0),
        call(1, SSR, 0),
        call(7, 0, 0),
        call(5, 0, 1),
        call(3, 600, 0),
        call(1, RDR, 0),
    ]
}

/// Commands that are refused, each way that a fresh port can meet, and the
/// nearest that are not.
fn broken() -> Vec<Vec<u8>> {
    [
        // 1, read and write, beside each run of the nine.
        "01 A5 FF 03",
        "01 90 FF 03",
        "01 97 FF 03",
        "01 9E FF 03",
        "01 A8 FF 03",
        "02 92 FF 03 00",
        "02 A5 FF 03 80 01",
        "02 FF FF 03 FF 01",
        "01 00",
        // 2, each operand, and before 1 and 3.
        "01 80 80 04",
        "02 80 80 04 00",
        "02 9B FF 03 80 02",
        "02 00 80 02",
        "02 A7 FF 03 80 03",
        "03 80 80 04",
        "04 02",
        "05 02 00",
        "05 00 02",
        "05 02 02",
        "06 10",
        "06 FF FF FF FF 0F",
        "08 80 80 04",
        "09 80 80 04",
        "08 FF FF FF FF 0F",
        // 3, and its neighbours.
        "02 A7 FF 03 80 01",
        "02 A7 FF 03 FF 01",
        "02 A7 FF 03 7F",
        "02 A6 FF 03 80 01",
        // 5, inside each number.
        "01",
        "01 9C",
        "01 9C FF",
        "02 9C FF 03",
        "02 9C FF 03 80",
        "03",
        "03 80",
        "04",
        "05",
        "05 01",
        "06",
        "08",
        "09",
        "08 FF FF",
        "80",
        "83 80 80 80",
        // 6, at each number, and before 5, 7 and 2.
        "80 00",
        "87 00",
        "81 80 00",
        "88 80 00",
        "88 80 80 80 10",
        "FF FF FF FF 7F",
        "FF FF FF FF 80",
        "FF FF FF FF 8F 00",
        "01 9C FF 83 00",
        "01 9C FF 83 80 00",
        "02 9C FF 03 81 00",
        "02 80 80 84 00 00",
        "03 80 00",
        "03 FF FF 83 00",
        "03 FF FF FF FF 10",
        "04 80 00",
        "05 81 00 00",
        "05 00 81 00",
        "06 8F 00",
        "08 80 00",
        "09 FF FF 83 00",
        // 7, with and without more behind.
        "00",
        "0A",
        "0A 01",
        "0F 00",
        "7F",
        "80 01",
        "81 02 9C FF 03",
        "87 80 80 80 01",
        "FF FF FF FF 0F",
        // 2 before the next number is read.
        "02 80 80 04",
        "02 80 80 04 80 00",
        "05 02 80 00",
        "05 02",
    ]
    .map(bytes)
    .to_vec()
}

/// Every number of one to five bytes with first, middle and last bytes that
/// matter, as the operand of a wait and as a kind.
fn forms() -> Vec<Vec<u8>> {
    let mut all: Vec<Vec<u8>> = Vec::new();
    let ends = [0x00, 0x01, 0x03, 0x04, 0x0f, 0x10, 0x7f];
    for size in 0..6 {
        for middle in [0x80, 0xff] {
            let mut number = vec![middle; size];
            all.push(number.clone());
            for end in ends {
                number.push(end);
                all.push(number.clone());
                number.pop();
            }
        }
    }
    all.sort();
    all.dedup();
    let kinds = all.clone();
    all = all
        .into_iter()
        .map(|number| [vec![0x03], number].concat())
        .collect();
    all.extend(kinds);
    all
}

/// All scripts of so many bytes over a few.
fn over(some: &[u8], length: u32) -> Vec<Vec<u8>> {
    let count = some.len().pow(length);
    (0..count)
        .map(|number| {
            (0..length)
                .map(|place| some[number / some.len().pow(place) % some.len()])
                .collect()
        })
        .collect()
}

/// Lengths across resets: by the module and by reset mode, of waits and of
/// edges of the clock pin, with waits while the clock stands, and refused.
fn resets() -> Vec<Vec<u8>> {
    [
        "06 03 03 05 06 00 06 03 03 07",
        "06 03 03 05 06 0B",
        "06 03 03 05 06 0B 03 09",
        "06 03 03 05 06 0B 06 03 03 07",
        "06 03 03 05 06 0A 06 03 03 07",
        "06 03 03 05 06 0B 06 0A 06 03 03 07",
        "06 03 03 FF FF 03 06 00 06 03 03 FF FF 03 06 02 06 03 03 01",
        "06 03 03 05 06 01 03 09 06 03 03 07",
        "06 03 03 05 06 02 03 09 07 06 03 03 07",
        // On the subclock, which SMR chooses.
        "06 05 03 09 02 98 FF 03 01 03 05 06 04 06 05 02 98 FF 03 01 03 07",
        // The clock pin: each level is one edge, the same levels again none.
        "06 03 02 9A FF 03 02 05 00 01 05 01 01 06 00",
        "06 03 02 9A FF 03 02 05 00 01 05 00 01 05 00 00 05 01 00 03 63 06 0B 05 00 01",
        "06 03 05 00 01 05 01 01 02 9A FF 03 02 05 00 01 05 01 01 02 9A FF 03 00 03 05 06 00 06 03 03 02",
        "06 03 02 9A FF 03 02 05 00 01 05 01 01 06 00 06 03 02 9A FF 03 02 05 00 01",
        // Refused: the length is not printed.
        "06 03 03 05 06 00 06 03 03 07 0A",
        "06 03 03 05 06 0B 03 80 80 04",
    ]
    .map(bytes)
    .to_vec()
}

/// Words that are completed where no other script of the list has them.
fn causes() -> Vec<Vec<u8>> {
    let clocked = "06 03 02 99 FF 03 00 02 98 FF 03 80 01 02 9A FF 03 10";
    let mut pins = bytes("06 03 02 98 FF 03 80 01 02 9A FF 03 12");
    for _ in 0..16 {
        pins.extend([5, 0, 1, 5, 1, 1]);
    }
    vec![
        // Two clocked words in one wait, and in cycles: the second is lost.
        bytes(&format!("{clocked} 03 40")),
        bytes(&format!("{clocked} 08 50")),
        // Two by the clock pin.
        pins,
    ]
}

/// Cycles: each choice and each divider, BRR with TE and RE on and off, stops,
/// resets, the external clock and kind 3 between, and both clocks.
fn in_cycles() -> Vec<Vec<u8>> {
    let mut all: Vec<Vec<u8>> = [
        // A word sent at an edge and off it; late and early BRR; a divider that
        // has run before; another choice.
        "06 03 02 99 FF 03 00 08 20 02 9A FF 03 20 03 C0 02",
        "06 03 02 99 FF 03 00 08 20 09 01 02 9A FF 03 20 03 E0 02",
        "06 03 08 64 02 9A FF 03 10 02 99 FF 03 00 08 9D 01",
        "08 0F 06 03 02 98 FF 03 02 02 99 FF 03 00 08 01",
        "06 01 02 98 FF 03 02 06 03 02 98 FF 03 00 08 80 02",
        // Nothing counts: off, stopped, in reset mode, on the other clock.
        "08 FF FF 03 09 FF FF 03",
        "06 01 08 FF FF 03 06 03 08 FF 01 08 01",
        "06 0B 08 FF FF 03 06 03 08 01",
        "06 03 09 FF FF 03 08 FF 01 08 01",
        "06 03 08 80 02 08 00 02 9A FF 03 20",
        // The subclock alone.
        "06 05 02 98 FF 03 01 09 80 02 09 80 02 08 80 02",
        "06 05 09 80 02 08 80 02",
        // A half by kind 3 leaves a full count, one that counts nothing does not.
        "06 03 08 64 03 01 08 FF 01 08 01",
        "06 03 08 64 06 01 03 01 06 03 08 9B 01 08 01",
        // Edges of the clock pin pass no ticks, and cycles no edges.
        "06 03 08 64 02 9A FF 03 02 05 00 01 08 FF FF 03 02 9A FF 03 00 08 9B 01 08 01",
        // A reset leaves 256, and the totals.
        "06 03 08 64 06 00 06 03 08 FF 01 08 01",
        "06 03 02 99 FF 03 05 06 0B 06 03 08 FF 01 08 01 08 FF 01 08 01",
        "08 3F 06 03 02 98 FF 03 03 02 99 FF 03 00 06 00 06 03 02 98 FF 03 03 02 99 FF 03 00 08 01 08 3F 08 01",
        // BRR with the value that it has, with TE, with RE, stopped, external.
        "06 03 02 99 FF 03 07 08 07 02 99 FF 03 07 08 07 08 01",
        "06 03 02 99 FF 03 07 08 03 02 9A FF 03 20 02 99 FF 03 01 08 04 08 01 08 02",
        "06 03 02 99 FF 03 07 08 03 02 9A FF 03 30 02 99 FF 03 01 08 04 08 01 08 02",
        "06 01 02 99 FF 03 03 06 03 08 03 08 01",
        "06 03 02 9A FF 03 02 02 99 FF 03 03 02 9A FF 03 00 08 03 08 01",
        "02 99 FF 03 03 06 03 08 FF 01 08 01",
        // Another choice keeps what is left.
        "06 03 02 99 FF 03 07 08 03 02 98 FF 03 01 09 04 09 01 02 98 FF 03 02 08 80 01",
    ]
    .map(bytes)
    .to_vec();
    // A word sent and one received, on each choice.
    for (choice, cycles) in [(0, "08"), (1, "09"), (2, "08"), (3, "08")] {
        let half = [1, 1, 16, 64][choice];
        let mut script = bytes("06 03 02 91 FF 03 10 02 98 FF 03");
        script.push(choice as u8);
        script.extend(bytes("02 99 FF 03 00 02 9A FF 03 30 02 9B FF 03 35 04 00"));
        let mut pass = |halves: u32| {
            script.extend(bytes(cycles));
            script.extend(shortest(halves * half));
        };
        for halves in [1, 63, 256, 32, 288] {
            pass(halves);
        }
        script.extend(bytes("01 9C FF 03 01 9D FF 03"));
        all.push(script);
    }
    all
}

/// Commands of one and two bytes on a port that counts, to fill a log.
fn filling(commands: usize) -> Vec<u8> {
    let mut script = bytes("06 03");
    for number in 1..commands {
        script.extend_from_slice(match number % 8 {
            0 => &[4, 0],
            1 | 5 => &[3, 7],
            4 => &[4, 1],
            _ => &[7],
        });
    }
    script
}

/// The cases. The order is part of the list.
pub fn items() -> Vec<Item> {
    let mut all = Vec::new();
    let mut add = |log: usize, script: &[u8]| {
        assert!(log <= LOG && script.len() <= SCRIPT);
        all.push(Item {
            log,
            script: script.to_vec(),
        });
    };
    for log in [0, 1, 4, 5, 6, 9, 10, 11, LOG] {
        add(log, &[]);
    }
    for byte in 0..=255 {
        add(5, &[byte]);
    }
    for log in 0..=16 {
        add(log, &[7]);
        add(log, &[7, 7]);
        add(log, &[7, 7, 10]);
    }
    let two = [
        0x00, 0x01, 0x02, 0x03, 0x04, 0x05, 0x06, 0x07, 0x08, 0x09, 0x0a, 0x0f, 0x10, 0x7f, 0x80,
        0x81, 0x87, 0x88, 0xff,
    ];
    for script in over(&two, 2) {
        add(10, &script);
    }
    let three = [
        0x00, 0x01, 0x02, 0x03, 0x04, 0x05, 0x06, 0x07, 0x80, 0x83, 0xff,
    ];
    for script in over(&three, 3) {
        add(15, &script);
    }
    for script in forms() {
        add(10, &script);
    }
    // Document 01's printed run, cut everywhere, in each length of log.
    let printed = bytes(document::RUN);
    for length in 0..=printed.len() {
        add(LOG, &printed[..length]);
        add(30, &printed[..length]);
    }
    for log in 0..=36 {
        add(log, &printed);
    }
    // Each refusal at each place, with log enough and with the log at its
    // end there, and one byte more behind it.
    let work = work();
    for (number, refused) in broken().into_iter().enumerate() {
        for place in [0, 1, 2 + number % 6, 8 + number % 5, work.len()] {
            let mut script = Script::of(&work[..place]).bytes;
            script.extend_from_slice(&refused);
            add(RECORD * place + RECORD, &script);
            if number % 4 == place % 4 {
                add(RECORD * place + number % RECORD, &script);
            }
            script.push(7);
            add(RECORD * place + 2 * RECORD, &script);
        }
    }
    // Each length of log under work, and with the last command broken.
    let whole = Script::of(&work).bytes;
    for log in 0..=RECORD * work.len() + 1 {
        add(log, &whole);
    }
    for log in (0..=RECORD * work.len()).step_by(3) {
        add(log, &whole[..whole.len() - 1]);
    }
    for script in resets() {
        add(RECORD * (commands(&script).0.len() + 1), &script);
    }
    for script in in_cycles() {
        add(RECORD * (commands(&script).0.len() + 1), &script);
    }
    for script in causes() {
        add(RECORD * (commands(&script).0.len() + 1), &script);
    }
    for (_, script) in checks::findings::scripts() {
        let script = bytes(&script);
        add(RECORD * commands(&script).0.len(), &script);
    }
    random(&mut add);
    // Long ones: the log filled to its end, one byte too short for the last
    // record, and full with a command left; the longest script of real work.
    let full = filling(LOG / RECORD);
    add(LOG, &full);
    add(LOG / 4 - 1, &filling(LOG / 4 / RECORD));
    let more = filling(LOG / RECORD + 1);
    add(LOG, &more);
    let r = &mut Random::new(SEED);
    let longest = make::script(4, SCRIPT, true, r).bytes;
    add(LOG, &longest);
    all
}

/// Random ones of every profile and damage, short.
fn random(add: &mut impl FnMut(usize, &[u8])) {
    for number in 0..1500_u64 {
        let r = &mut Random::new(SEED + number);
        let profile = (number as usize) % MADE;
        let length = match r.below(8) {
            0 => 300,
            1..4 => 120,
            _ => 60,
        };
        if profile == BYTES {
            add(
                make::log_length(4, r).min(64),
                &make::any_bytes(1 + length / 8, r),
            );
            continue;
        }
        let whole = make::script(profile, length, false, r);
        let damage = match number % 3 {
            0 => 0,
            _ => r.below(DAMAGES.len() as u32) as usize,
        };
        let script = make::damaged(&whole, damage, r);
        // A log of the program's length is dear to sum, so it is rare.
        let log = make::log_length(whole.commands(), r);
        let enough = whole.commands() * RECORD + 2 * RECORD;
        let log = if r.one_in(40) { log } else { log.min(enough) };
        add(log, &script);
    }
}

/// FNV-1a, 32 bits.
pub fn fnv(bytes: impl Iterator<Item = u8>) -> u32 {
    bytes.fold(0x811c_9dc5, |sum, byte| {
        (sum ^ u32::from(byte)).wrapping_mul(0x0100_0193)
    })
}

/// The sum of a log and of the state's numbers, eight bytes each.
fn sum(log: &[u8], words: &Words) -> u32 {
    let words = words.iter().flat_map(|word| word.to_le_bytes());
    fnv(log.iter().copied().chain(words))
}

pub fn cases(items: &[Item], writes: &[Write]) -> Vec<u8> {
    let mut all = Vec::new();
    for item in items {
        for length in [item.log, item.script.len()] {
            all.extend_from_slice(&(length as u16).to_le_bytes());
        }
        all.extend_from_slice(&item.script);
    }
    all.extend(writes.iter().flat_map(Write::case));
    all
}

/// A case's lines: what its run answered and left.
pub fn lines(played: &Played, log: &[u8], words: &Words) -> String {
    let mut text = String::new();
    for record in log[..played.written as usize].chunks_exact(RECORD) {
        let _ = writeln!(text, "{}", line(record));
    }
    let _ = writeln!(text, "{}", played.last_line());
    let _ = writeln!(text, "= {:08X}", sum(log, words));
    text
}

/// The log before a run.
pub fn blank(item: &Item) -> Vec<u8> {
    vec![FILL; item.log]
}

/// What the oracle answers to every case.
pub fn printout(items: &[Item], writes: &[Write]) -> Result<String, String> {
    let mut text = String::new();
    for (number, item) in items.iter().enumerate() {
        let mut log = blank(item);
        let (played, state) = reference(&Start::Fresh, &item.script, &mut log)
            .map_err(|fault| format!("case {number}: {fault}"))?;
        text.push_str(&lines(&played, &log, &encode(&state)));
    }
    for write in writes {
        text.push_str(&writes::lines(write, &write.written()));
    }
    let _ = writeln!(text, "{} cases", items.len() + writes.len());
    Ok(text)
}
