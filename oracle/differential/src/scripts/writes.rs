//! Writes of the replay list: a number or a command written at an offset of a
//! buffer, or only the test whether bytes fit. What must come out is made here
//! with the writer that makes all scripts of these runs.
//!
//! A write stands in the list as a case whose log's length is `MARK`, which no
//! log has: kind in two bytes, operands in four each, the buffer's length and
//! the offset in eight each, low byte first. Kind 0 writes the first operand as
//! a number, 1 to 9 the command; 10 asks whether as many bytes fit as the two
//! operands make, the first the low half.
use super::{
    list::{FILL, fnv},
    make::{numbers, shortest},
};
use model::{Command, sample::Random};

pub const MARK: u16 = 0xffff;
pub const FITS: u16 = 10;
/// The longest buffer.
pub const ROOM: u64 = 32;
const SEED: u64 = 0x5c13_0003;

#[derive(Clone, Copy, Debug)]
pub struct Write {
    pub kind: u16,
    pub a: u32,
    pub b: u32,
    pub length: u64,
    pub at: u64,
}

impl Write {
    /// Bytes to be stored.
    pub fn bytes(&self) -> Vec<u8> {
        let Self { kind, a, b, .. } = *self;
        let kind = kind.into();
        match kind {
            0 => shortest(a),
            _ => numbers(Command { kind, a, b })
                .into_iter()
                .flat_map(shortest)
                .collect(),
        }
    }
    /// How many bytes.
    pub fn size(&self) -> u64 {
        match self.kind {
            FITS => u64::from(self.b) << 32 | u64::from(self.a),
            _ => self.bytes().len() as u64,
        }
    }
    /// Whether they fit. In 128 bits no sum is too large.
    pub fn fits(&self) -> bool {
        u128::from(self.at) + u128::from(self.size()) <= self.length.into()
    }
    /// The buffer before.
    pub fn blank(&self) -> Vec<u8> {
        vec![FILL; self.length as usize]
    }
    /// The offset after the bytes, where they fit, and the buffer; the test
    /// has none.
    pub fn written(&self) -> (Option<u64>, Vec<u8>) {
        if self.kind == FITS {
            return (self.fits().then_some(0), Vec::new());
        }
        let mut buffer = self.blank();
        if !self.fits() {
            return (None, buffer);
        }
        let (at, bytes) = (self.at as usize, self.bytes());
        buffer[at..at + bytes.len()].copy_from_slice(&bytes);
        (Some(self.at + bytes.len() as u64), buffer)
    }
    /// As a case of the list.
    pub fn case(&self) -> Vec<u8> {
        let mut case = [MARK.to_le_bytes(), 26_u16.to_le_bytes()].concat();
        case.extend(self.kind.to_le_bytes());
        case.extend(self.a.to_le_bytes());
        case.extend(self.b.to_le_bytes());
        case.extend(self.length.to_le_bytes());
        case.extend(self.at.to_le_bytes());
        case
    }
}

/// A case's lines: `to` and the offset after the bytes, or `full`, and the sum
/// of the whole buffer; of the test alone `fits` or `full`.
pub fn lines(write: &Write, (to, buffer): &(Option<u64>, Vec<u8>)) -> String {
    let answer = match to {
        Some(_) if write.kind == FITS => "fits".into(),
        Some(to) => format!("to {to}"),
        None => "full".into(),
    };
    match write.kind {
        FITS => format!("{answer}\n"),
        _ => format!("{answer}\n= {:08X}\n", fnv(buffer.iter().copied())),
    }
}

/// The cases. The order is part of the list.
pub fn all() -> Vec<Write> {
    [numbers_alone(), commands(), random(), tests()].concat()
}

fn write(kind: u16, a: u32, b: u32, length: u64, at: u64) -> Write {
    Write {
        kind,
        a,
        b,
        length,
        at,
    }
}

/// Numbers about each power of two; then each size of a number at each offset
/// of a buffer that is about as long.
fn numbers_alone() -> Vec<Write> {
    let mut all = Vec::new();
    for power in (0..32).map(|bit| 1 << bit) {
        for value in [power - 1, power, power + 1] {
            all.push(write(0, value, 0, 16, 3));
        }
    }
    for value in [0x7f, 0x80, 0x4000, 0x20_0000, 0x1000_0000, u32::MAX] {
        for length in 0..=6 {
            for at in 0..=length + 1 {
                all.push(write(0, value, 0, length, at));
            }
        }
    }
    all
}

/// Operands in range and above it.
fn commands() -> Vec<Write> {
    let first = [0, 1, 2, 15, 16, 0x7f, 0x80, 0xff9c, 65535, 65536, u32::MAX];
    let mut all = Vec::new();
    for kind in 1..=9 {
        for a in first {
            for b in [0, 0xff, u32::MAX] {
                all.push(write(kind, a, b, 20, 1));
            }
        }
    }
    all
}

/// About the buffer's end, and offsets so far that a sum would overflow.
fn random() -> Vec<Write> {
    let r = &mut Random::new(SEED);
    let mut all = Vec::new();
    for _ in 0..300 {
        let kind = r.below(FITS.into()) as u16;
        let [a, b] = [0, 0].map(|_| r.below(u32::MAX) >> r.below(32));
        let length = u64::from(r.below(ROOM as u32 + 1));
        let at = match r.below(8) {
            0 => u64::MAX - u64::from(r.below(12)),
            1 => u64::from(r.below(40)),
            _ => length.saturating_sub(r.below(13).into()),
        };
        all.push(write(kind, a, b, length, at));
    }
    all
}

/// The test alone, up to the greatest numbers.
fn tests() -> Vec<Write> {
    let ends = [0, 1, 5, 1 << 32, u64::MAX - 1, u64::MAX];
    let mut all = Vec::new();
    for length in ends {
        for at in ends {
            for n in ends {
                all.push(write(FITS, n as u32, (n >> 32) as u32, length, at));
            }
        }
    }
    all
}
