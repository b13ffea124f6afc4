//! A state as the array of numbers that the proved port takes. One number for
//! each field in the order of the state; a bool is 0 or 1; what may be absent
//! is a tag and then its values at places of their own, 0 where not in use.
use model::{Character, Format, Rx, State, Tx};

pub const LENGTH: usize = 56;
pub type Words = [u64; LENGTH];

/// The greatest number of each place.
pub const MOST: Words = {
    const B: u64 = u8::MAX as u64;
    const H: u64 = u16::MAX as u64;
    const W: u64 = u32::MAX as u64;
    const D: u64 = u64::MAX;
    [
        B, B, B, B, B, B, B, B, B, B, // registers, seen bits
        1, 1, 1, 1, // power
        W, 1, 1, // half count, phase, edge
        1, B, // holding
        5, 1, B, 1, 1, B, W, H, B, 1, W, 1, // sender
        1, 1, B, 1, 1, B, W, B, B, 1, B, 1, W, // receiver
        1, W, 1, 1, 1, // transmit line, bit start, line, clock pin, sck
        1, W, // next clocked edge
        D, D, // tallies
        H, D, D, // ticks left, system cycles, watch cycles
    ]
};

/// The place of the half count.
pub const HALF: usize = 14;

/// Where the holding place, the sender, the receiver, the lines and the next
/// clocked edge begin; then the two tallies, and the ticks left, after which
/// come the cycles of both clocks.
const HOLDING: usize = 17;
const SENDER: usize = 19;
const RECEIVER: usize = 31;
const LINES: usize = 44;
const EDGE: usize = 49;
const TALLIES: usize = 51;
const REMAINING: usize = 53;

fn due(words: &mut [u64], half: Option<u32>) {
    if let Some(half) = half {
        words[0] = 1;
        words[1] = half.into();
    }
}

fn format(words: &mut [u64], f: Format) {
    words[..6].copy_from_slice(&[
        f.synchronous.into(),
        f.data.into(),
        f.parity.into(),
        f.odd.into(),
        f.stops.into(),
        f.half_bit.into(),
    ]);
}

/// Format and word.
fn character(words: &mut [u64], c: Character) {
    format(words, c.format);
    words[6] = c.word.into();
}

/// Tag, character (7), cell, due half (2), whether a word is loaded.
fn sender(words: &mut [u64], tx: Tx) {
    match tx {
        Tx::Blocked { character: c } => {
            words[0] = 1;
            character(&mut words[1..], c);
        }
        Tx::Mark { next } => {
            words[0] = 2;
            due(&mut words[9..], Some(next));
        }
        Tx::Start { character: c, next } => {
            words[0] = 3;
            character(&mut words[1..], c);
            due(&mut words[9..], Some(next));
        }
        Tx::Data {
            character: c,
            cell,
            next,
        } => {
            words[0] = 4;
            character(&mut words[1..], c);
            words[8] = cell.into();
            due(&mut words[9..], next);
        }
        Tx::Tail { loaded, next } => {
            words[0] = 5;
            if let Some(c) = loaded {
                character(&mut words[1..], c);
                words[11] = 1;
            }
            due(&mut words[9..], next);
        }
    }
}

/// Tag, format (6), value, position plus 128, parity, error, due half (2).
fn receiver(words: &mut [u64], rx: Rx) {
    words[0] = 1;
    format(&mut words[1..], rx.format);
    words[7] = rx.value.into();
    words[8] = (i64::from(rx.position) + 128) as u64;
    words[9] = rx.parity.into();
    words[10] = rx.error.into();
    due(&mut words[11..], rx.next);
}

pub fn encode(s: &State) -> Words {
    let mut words = [0; LENGTH];
    let registers = [
        s.spcr, s.smr, s.brr, s.scr, s.tdr, s.ssr, s.rdr, s.semr, s.ircr, s.seen,
    ];
    for (place, register) in words.iter_mut().zip(registers) {
        *place = register.into();
    }
    for (place, bit) in words[10..]
        .iter_mut()
        .zip([s.module, s.main, s.sub, s.reset_mode])
    {
        *place = bit.into();
    }
    words[HALF] = s.half.into();
    words[15] = s.high.into();
    words[16] = s.edge.into();
    if let Some(byte) = s.holding {
        words[HOLDING] = 1;
        words[HOLDING + 1] = byte.into();
    }
    if let Some(tx) = s.tx {
        sender(&mut words[SENDER..RECEIVER], tx);
    }
    if let Some(rx) = s.rx {
        receiver(&mut words[RECEIVER..LINES], rx);
    }
    words[LINES] = s.uart.into();
    words[LINES + 1] = s.bit_start.into();
    words[LINES + 2] = s.input.into();
    words[LINES + 3] = s.input_clock.into();
    words[LINES + 4] = s.sck.into();
    due(&mut words[EDGE..], s.sync_next);
    words[TALLIES] = s.transmitted;
    words[TALLIES + 1] = s.received;
    words[REMAINING] = s.remaining.into();
    words[REMAINING + 1] = s.system;
    words[REMAINING + 2] = s.watch;
    words
}

/// The array, if it has a state's length and no number is above its place's
/// greatest.
pub fn within(array: &[u64]) -> Option<Words> {
    let words = Words::try_from(array).ok()?;
    let fits = words.iter().zip(MOST).all(|(word, most)| *word <= most);
    fits.then_some(words)
}

/// Arrays that are no state, each with what is wrong with it: this one of
/// another length, or with a number above its place's greatest.
pub fn no_states(words: &Words) -> Vec<(String, Vec<u64>)> {
    let mut all = Vec::new();
    for length in (0..LENGTH).chain(LENGTH + 1..LENGTH + 12) {
        let mut array = words.to_vec();
        array.resize(length, 0);
        all.push((format!("length {length}"), array));
    }
    for (place, most) in MOST.into_iter().enumerate() {
        let Some(above) = most.checked_add(1) else {
            continue;
        };
        for number in [above, above | 1 << 40, u64::MAX] {
            let mut array = words.to_vec();
            array[place] = number;
            all.push((format!("{number} at place {place}"), array));
        }
    }
    all
}

/// The state in an array as the port writes it: no number above its place's
/// greatest, and 0 in every place not in use.
pub fn decode(words: &Words) -> Result<State, String> {
    if let Some(place) = (0..LENGTH).find(|place| words[*place] > MOST[*place]) {
        return Err(format!("place {place} of the array holds {}", words[place]));
    }
    let state = read(words);
    let again = encode(&state);
    match (0..LENGTH).find(|place| words[*place] != again[*place]) {
        Some(place) => Err(format!(
            "place {place} of the array is not in use and holds {}",
            words[place]
        )),
        None => Ok(state),
    }
}

/// Every number is at most its place's greatest, so each fits its type.
pub fn read(words: &Words) -> State {
    let byte = |place: usize| words[place] as u8;
    let bit = |place: usize| words[place] != 0;
    let half = |place: usize| words[place] as u32;
    let due = |place: usize| bit(place).then(|| half(place + 1));
    let format = |place: usize| Format {
        synchronous: bit(place),
        data: byte(place + 1),
        parity: bit(place + 2),
        odd: bit(place + 3),
        stops: byte(place + 4),
        half_bit: half(place + 5),
    };
    let character = Character {
        format: format(SENDER + 1),
        word: words[SENDER + 7] as u16,
    };
    let next = due(SENDER + 9);
    State {
        spcr: byte(0),
        smr: byte(1),
        brr: byte(2),
        scr: byte(3),
        tdr: byte(4),
        ssr: byte(5),
        rdr: byte(6),
        semr: byte(7),
        ircr: byte(8),
        seen: byte(9),
        module: bit(10),
        main: bit(11),
        sub: bit(12),
        reset_mode: bit(13),
        half: half(HALF),
        high: bit(15),
        edge: bit(16),
        holding: bit(HOLDING).then(|| byte(HOLDING + 1)),
        tx: match words[SENDER] {
            0 => None,
            1 => Some(Tx::Blocked { character }),
            2 => Some(Tx::Mark {
                next: half(SENDER + 10),
            }),
            3 => Some(Tx::Start {
                character,
                next: half(SENDER + 10),
            }),
            4 => Some(Tx::Data {
                character,
                cell: byte(SENDER + 8),
                next,
            }),
            _ => Some(Tx::Tail {
                loaded: bit(SENDER + 11).then_some(character),
                next,
            }),
        },
        rx: bit(RECEIVER).then(|| Rx {
            format: format(RECEIVER + 1),
            value: byte(RECEIVER + 7),
            position: (i16::from(byte(RECEIVER + 8)) - 128) as i8,
            parity: bit(RECEIVER + 9),
            error: byte(RECEIVER + 10),
            next: due(RECEIVER + 11),
        }),
        uart: bit(LINES),
        bit_start: half(LINES + 1),
        input: bit(LINES + 2),
        input_clock: bit(LINES + 3),
        sck: bit(LINES + 4),
        sync_next: due(EDGE),
        transmitted: words[TALLIES],
        received: words[TALLIES + 1],
        remaining: words[REMAINING] as u16,
        system: words[REMAINING + 1],
        watch: words[REMAINING + 2],
    }
}
