//! Figures that document 01 prints and that several checks compare with.

/// The seven words: SMR, the value, its word.
pub const WORDS: [(u8, u8, u16); 7] = [
    (0x00, 0x55, 0x2aa),
    (0x20, 0x01, 0x602),
    (0x30, 0x01, 0x402),
    (0x24, 0xff, 0x7e),
    (0x64, 0xff, 0xfe),
    (0x48, 0x80, 0x300),
    (0x80, 0xa5, 0xa5),
];

/// The printed run: its script, and its lines.
pub const RUN: &str = "06 03 02 91 FF 03 10 02 9A FF 03 20 02 9B FF 03 55 03 E0 02 01 9C FF 03";
pub const PRINTOUT: [&str; 7] = [
    "6 00 84 - 0 0",
    "2 00 84 1 0 0",
    "2 00 84 1 0 0",
    "2 00 00 1 0 0",
    "3 00 80 0 0 0",
    "1 80 80 0 0 0",
    "end 352",
];
