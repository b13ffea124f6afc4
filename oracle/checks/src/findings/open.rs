//! What document 01 leaves open.
use crate::Part;
use model::{LIMIT, Oracle, RECORD, SCRIPT, bytes, commands, field_test, line, play};

/// Neither 4 nor 8 can come from the program.
pub fn printable() -> Vec<Part> {
    let fresh = match field_test(&Oracle::fresh().state()) {
        Ok(()) => "fresh port passes 8".into(),
        Err(clause) => format!("fresh port fails 8: {clause}"),
    };
    let mut script = bytes("06 03");
    while script.len() + 4 <= SCRIPT {
        script.extend(bytes("03 FF FF 03"));
    }
    let waits = &commands(&script).0[1..];
    let halves: u32 = waits.iter().map(|wait| wait.a).sum();
    let bound = if halves < LIMIT { "below" } else { "above" };
    vec![
        Part::new("fresh port", "fresh port passes 8", fresh),
        Part::new(
            "06 03, then 03 FF FF 03 while 16384 bytes allow",
            "4095 commands, 268365825 halves, below the limit",
            format!(
                "{} commands, {halves} halves, {bound} the limit",
                waits.len()
            ),
        ),
    ]
}

/// Capitals in the printed lines.
pub fn capitals() -> Vec<Part> {
    let script = "06 03 02 9A FF 03 20 02 98 FF 03 AF 01 01 98 FF 03";
    let mut log = [0; 4 * RECORD];
    let met = match play(&mut Oracle::fresh(), &bytes(script), &mut log) {
        Ok(_) => line(&log[3 * RECORD..]),
        Err(fault) => fault.to_string(),
    };
    vec![Part::new(script, "1 AF 84 - 0 0", met)]
}
