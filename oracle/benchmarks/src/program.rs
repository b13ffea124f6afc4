//! The reference's program, beside ours: reads a script from standard input,
//! plays it on a fresh port and prints the same lines.
use crate::{
    play,
    port::{Pace, Reference},
};
use model::{LOG, Oracle, RECORD};
use reference::Sci;
use std::io::{Read, Write};

/// The reference's program: standard input to standard output.
pub fn main(pace: Pace) -> Result<(), String> {
    let mut script = Vec::new();
    let text = |e: std::io::Error| e.to_string();
    std::io::stdin().read_to_end(&mut script).map_err(text)?;
    let mut port: Reference<Sci> = Reference::at(&Oracle::fresh().state(), pace);
    let mut log = vec![0; LOG];
    let (written, length) = play::script(&mut port, &script, &mut log)?;
    let mut lines = printed(&log[..written]);
    lines.extend(format!("end {length}\n").bytes());
    std::io::stdout().write_all(&lines).map_err(text)
}

/// The records as lines: kind, answer, SSR, level, interrupt, cause.
fn printed(log: &[u8]) -> Vec<u8> {
    const DIGITS: &[u8; 16] = b"0123456789ABCDEF";
    let mut lines = Vec::with_capacity(log.len() * 3);
    for record in log.chunks_exact(RECORD) {
        let hex = |byte: u8| {
            [
                DIGITS[usize::from(byte >> 4)],
                DIGITS[usize::from(byte & 15)],
            ]
        };
        let [kind, answer, ssr, level, interrupt, cause] =
            [0, 1, 2, 3, 4, 5].map(|place| record[place]);
        let ([a, b], [c, d]) = (hex(answer), hex(ssr));
        let level = if level == 2 { b'-' } else { b'0' + level };
        let line = [
            b'0' + kind,
            b' ',
            a,
            b,
            b' ',
            c,
            d,
            b' ',
            level,
            b' ',
            b'0' + interrupt,
            b' ',
            b'0' + cause,
            b'\n',
        ];
        lines.extend(line);
    }
    lines
}

#[cfg(test)]
mod tests {
    use super::*;

    #[test]
    fn lines_are_the_oracles() {
        for level in 0..3 {
            for byte in [0, 0x0f, 0x84, 0xaf] {
                let record = [7, byte, !byte, level, 1, 8 - level];
                let line = format!("{}\n", model::line(&record));
                assert_eq!(
                    String::from_utf8(printed(&record)).as_deref(),
                    Ok(&line[..])
                );
            }
        }
    }
}
