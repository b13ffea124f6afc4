//! The port state that documents 01 and 02 keep, as plain data. Names follow
//! the reference; widths follow document 01 (half count and due halves 32 bits).
//! Left out: time, light queue, optical log, infrared pulses, `mux_glitch`,
//! and what follows from the registers (chosen clock, running, external).

/// What a word looks like on the line. `half_bit` is the cell length.
#[derive(Clone, Copy, Debug, PartialEq, Eq, Hash)]
pub struct Format {
    pub synchronous: bool,
    pub data: u8,
    pub parity: bool,
    pub odd: bool,
    pub stops: u8,
    pub half_bit: u32,
}

#[derive(Clone, Copy, Debug, PartialEq, Eq, Hash)]
pub struct Character {
    pub format: Format,
    pub word: u16,
}

/// The sender's five states; the sixth, no sender, is `None` around it.
#[derive(Clone, Copy, Debug, PartialEq, Eq, Hash)]
pub enum Tx {
    Blocked {
        character: Character,
    },
    Mark {
        next: u32,
    },
    Start {
        character: Character,
        next: u32,
    },
    Data {
        character: Character,
        cell: u8,
        next: Option<u32>,
    },
    Tail {
        loaded: Option<Character>,
        next: Option<u32>,
    },
}

#[derive(Clone, Copy, Debug, PartialEq, Eq, Hash)]
pub struct Rx {
    pub format: Format,
    pub value: u8,
    pub position: i8,
    pub parity: bool,
    pub error: u8,
    pub next: Option<u32>,
}

impl Rx {
    /// Nothing but zeros taken so far, and due at the first half.
    pub fn at(position: i8, format: Format) -> Self {
        Self {
            format,
            value: 0,
            position,
            parity: false,
            error: 0,
            next: Some(1),
        }
    }
}

#[derive(Clone, Copy, Debug, PartialEq, Eq, Hash)]
pub struct State {
    pub spcr: u8,
    pub smr: u8,
    pub brr: u8,
    pub scr: u8,
    pub tdr: u8,
    pub ssr: u8,
    pub rdr: u8,
    pub semr: u8,
    pub ircr: u8,
    pub seen: u8,
    pub module: bool,
    pub main: bool,
    pub sub: bool,
    pub reset_mode: bool,
    pub half: u32,
    /// The phase.
    pub high: bool,
    /// "At the edge": the reference's present time is its last edge's time.
    pub edge: bool,
    pub holding: Option<u8>,
    pub tx: Option<Tx>,
    pub rx: Option<Rx>,
    pub uart: bool,
    pub bit_start: u32,
    /// The receive line.
    pub input: bool,
    pub input_clock: bool,
    pub sck: bool,
    pub sync_next: Option<u32>,
    pub transmitted: u64,
    pub received: u64,
    /// Ticks left to the next half.
    pub remaining: u16,
    /// Cycles so far of the system clock and of the watch clock.
    pub system: u64,
    pub watch: u64,
}
