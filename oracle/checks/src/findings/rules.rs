//! The player's order of refusals, which document 01 alone rules.
use crate::{Part, tools::ends};
use model::{Oracle, bytes, play};

pub fn order() -> Vec<Part> {
    let mut parts: Vec<Part> = [
        ("02 A5 FF 03", 5),
        ("02 A5 FF 03 80 00", 6),
        ("02 A5 FF 03 80 02", 2),
        ("02 A5 FF 03 00", 1),
        ("02 80 80 04", 2),
        ("03 FF FF FF FF 0F", 2),
        ("03 FF FF FF FF 10", 6),
        ("03 80 80 80 80", 5),
        ("03 80 80 80 80 80", 6),
    ]
    .iter()
    .map(|(script, number)| ends(script, &format!("refused {number} at 0")))
    .collect();
    let short = match play(&mut Oracle::fresh(), &bytes("0A"), &mut [0; 4]) {
        Ok(run) => run.last_line(),
        Err(fault) => fault.to_string(),
    };
    parts.push(Part::new("0A, log of 4 bytes", "refused 9 at 0", short));
    parts
}
