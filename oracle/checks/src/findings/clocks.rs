//! Findings 11 to 14 and 18: edge bit, pins, phase, the clocked edge, sources.
use super::measured;
use crate::{
    Part,
    tools::{after, after_on, bit, due, end, given, receiver, sender, shows},
};
use model::{LIMIT, Oracle, State};

/// 11: what leaves the edge bit and what clears it.
pub fn edge_bit() -> Vec<Part> {
    let edge = |s: &State| format!("edge {}", bit(s.edge));
    let mut parts = vec![
        shows(
            "06 03 03 20 06 01 06 03 02 9A FF 03 20",
            "mark to 352",
            sender,
        ),
        shows(
            "06 03 03 20 06 01 07 06 03 02 9A FF 03 20",
            "mark to 384",
            sender,
        ),
        shows("06 03 03 01 02 9A FF 03 02 03 01", "edge 0", edge),
        shows("06 03 03 01 02 9A FF 03 02 03 00", "edge 1", edge),
    ];
    // Power without reset, writes (SMR, SEMR, clock choice), kinds 4 and 5.
    for left in [
        "06 07",
        "06 01",
        "02 99 FF 03 00",
        "02 98 FF 03 82 01",
        "02 A6 FF 03 08",
        "02 9A FF 03 02",
        "04 00",
        "05 00 01",
    ] {
        parts.push(shows(&format!("06 03 03 01 {left}"), "edge 1", edge));
    }
    parts
}

/// 12: the clock operand is compared with the phase.
pub fn pins() -> Vec<Part> {
    let script = "06 03 02 9A FF 03 02 06 01 05 00 01 06 03";
    let half = |s: &State| format!("half {}", s.half);
    let then =
        |command: &str, expected: &str| shows(&format!("{script} {command}"), expected, half);
    let last = {
        let mut state = after(script).state();
        state.half = LIMIT;
        state
    };
    let at_limit = |command: &str| end(&mut Oracle::from_state(&last), command);
    vec![
        shows(script, "phase 1, pin 0", |s| {
            format!("phase {}, pin {}", bit(s.high), bit(s.input_clock))
        }),
        then("05 00 01", "half 0"),
        then("05 00 00", "half 1"),
        then("04 00", "half 0"),
        Part::new(
            "that state at the limit: 05 00 01",
            "end 0",
            at_limit("05 00 01"),
        ),
        Part::new(
            "that state at the limit: 05 00 00",
            "refused 4 at 0",
            at_limit("05 00 00"),
        ),
        shows(
            "06 03 02 9A FF 03 12 05 00 00",
            "position -1 due 16",
            receiver,
        ),
        shows("05 00 00", "half 0, pins 0 0", |s| {
            format!(
                "half {}, pins {} {}",
                s.half,
                bit(s.input_clock),
                bit(s.input)
            )
        }),
    ]
}

/// 13: the phase follows the pin only where SCR bit 1 goes on.
pub fn phase() -> Vec<Part> {
    let script = "06 03 05 00 01 02 9A FF 03 02 02 9A FF 03 00";
    let both = |s: &State| format!("half {}, phase {}", s.half, bit(s.high));
    vec![
        shows(script, "half 0, phase 0", both),
        shows(&format!("{script} 06 01 06 03"), "half 0, phase 0", both),
    ]
}

/// 14: the clocked edge across clock choices, stops and refreshes.
pub fn clocked_edge(size: u32) -> Vec<Part> {
    let receiving = "06 03 02 98 FF 03 80 01 02 9A FF 03 10 03 02";
    let switched = format!("{receiving} 02 9A FF 03 12 02 9A FF 03 10");
    let edge = |s: &State| {
        format!(
            "half {}, sck {}, sync_next {}",
            s.half,
            bit(s.sck),
            due(s.sync_next)
        )
    };
    // No clocked work stands, so a refresh raises sck.
    let low = given(|s| {
        s.module = true;
        s.sck = false;
    });
    let sck = |script: &str| {
        format!(
            "sck {}",
            bit(after_on(Oracle::from_state(&low), script).state().sck)
        )
    };
    let mut parts = vec![
        shows(&switched, "half 2, sck 0, sync_next 4", edge),
        shows(
            &format!("{switched} 03 02"),
            "half 4, sck 1, sync_next 6",
            edge,
        ),
        shows(
            &format!("{receiving} 02 9A FF 03 12"),
            "half 2, sck 0, sync_next none",
            edge,
        ),
        shows(
            &format!("{receiving} 06 01 03 01"),
            "half 2, sck 0, sync_next 4",
            edge,
        ),
    ];
    for (script, expected) in [
        ("06 03", "sck 1"),
        ("02 9D FF 03 00", "sck 1"),
        ("01 9C FF 03", "sck 0"),
        ("04 00", "sck 0"),
        ("07", "sck 0"),
        ("03 01", "sck 0"),
    ] {
        parts.push(Part::new(
            format!("sck 0, sync_next none, stopped: {script}"),
            expected,
            sck(script),
        ));
    }
    parts.push(measured::power_refresh(size));
    parts
}

/// 18: with the subclock alone halves pass only with SMR bits 0 and 1 at 1.
pub fn sources() -> Vec<Part> {
    [
        ("06 05 03 01", "half 0"),
        ("06 05 02 98 FF 03 01 03 01", "half 1"),
        ("06 05 02 98 FF 03 02 03 01", "half 0"),
        ("06 05 02 98 FF 03 03 03 01", "half 0"),
    ]
    .map(|(script, expected)| shows(script, expected, |s| format!("half {}", s.half)))
    .into()
}
