//! Findings 15 to 17 and 20: which words count, how they start.
use crate::{
    Part,
    tools::{hex, receiver, sender, shows},
};
use model::State;

/// 15: which words the tallies count.
pub fn tallies() -> Vec<Part> {
    let on = "06 03 02 9A FF 03 10";
    let good = "04 00 03 20 04 01 03 A0 02";
    let received = |s: &State| format!("SSR {:02X}, received {}", s.ssr, s.received);
    let sent = |s: &State| format!("half {}, finished {}", s.half, s.transmitted);
    let sending = "06 03 02 9A FF 03 20 02 9B FF 03 00";
    vec![
        shows(&format!("{on} {good}"), "SSR C4, received 1", received),
        shows(
            &format!("{on} {good} {good}"),
            "SSR E4, received 1",
            received,
        ),
        shows(
            "06 03 02 98 FF 03 20 02 9A FF 03 10 04 00 03 20 04 01 03 C0 02",
            "SSR 8C, received 0",
            received,
        ),
        shows(
            &format!("{on} 04 00 03 C0 02"),
            "SSR 94, received 0",
            received,
        ),
        shows(&format!("{sending} 03 9F 05"), "half 671, finished 0", sent),
        shows(&format!("{sending} 03 A0 05"), "half 672, finished 1", sent),
        shows(
            &format!("{sending} 03 9F 05 02 9A FF 03 00 03 20"),
            "half 703, finished 0",
            sent,
        ),
    ]
}

/// 16: a word starts on a level; its format is taken at the fall.
pub fn arming() -> Vec<Part> {
    let bits = |s: &State| {
        s.rx.map_or("no receiver".into(), |rx| {
            format!("{} bits", rx.format.data)
        })
    };
    let rdr = |s: &State| format!("RDR {:02X}", s.rdr);
    vec![
        shows("06 03 04 00 02 9A FF 03 10", "position -2 due 1", receiver),
        shows(
            "06 03 02 9A FF 03 10 02 91 FF 03 01",
            "position -2 due 1",
            receiver,
        ),
        shows(
            "06 03 02 9A FF 03 10 04 00 03 C0 02 01 9C FF 03",
            "no receiver",
            receiver,
        ),
        shows(
            "06 03 02 9A FF 03 10 04 00 03 C0 02 01 9C FF 03 02 9C FF 03 00",
            "position -2 due 321",
            receiver,
        ),
        shows(
            "06 03 04 00 02 9A FF 03 10 02 98 FF 03 44 03 01",
            "5 bits",
            bits,
        ),
        shows(
            "06 03 04 00 02 9A FF 03 10 02 98 FF 03 80 01 03 01",
            "no receiver",
            receiver,
        ),
        shows(
            "06 03 04 00 02 9A FF 03 10 03 01 02 98 FF 03 80 01 03 01",
            "position -1 due 16",
            receiver,
        ),
        shows(
            "06 03 02 98 FF 03 80 01 02 9A FF 03 10 03 20",
            "RDR FF",
            rdr,
        ),
        shows(
            "06 03 02 98 FF 03 80 01 02 91 FF 03 01 02 9A FF 03 10 03 20",
            "RDR 00",
            rdr,
        ),
    ]
}

/// 17: when TE brings a mark.
pub fn mark() -> Vec<Part> {
    let held = |s: &State| format!("{}, holding {}", sender(s), hex(s.holding));
    let clocked = "06 03 02 9A FF 03 20 02 98 FF 03 80 01 02 9B FF 03 01";
    vec![
        shows(
            "06 03 02 98 FF 03 80 01 02 9A FF 03 20 02 98 FF 03 00 02 9B FF 03 01",
            "start due 32",
            sender,
        ),
        shows(clocked, "mark to 352, holding 01", held),
        shows(
            &format!("{clocked} 03 DF 02"),
            "mark to 352, holding 01",
            held,
        ),
        shows(
            &format!("{clocked} 03 E0 02"),
            "data 0 due none, holding none",
            held,
        ),
        shows(
            "06 03 02 9A FF 03 20 03 0A 02 9A FF 03 30",
            "mark to 352",
            sender,
        ),
    ]
}

/// 20: stepped half by half a word is armed at the half after the clocked one
/// ended. Driven by events: tests/events.rs of `benchmarks`.
pub fn stepped() -> Vec<Part> {
    vec![shows(
        "06 03 02 98 FF 03 80 01 02 9A FF 03 10 04 00 03 1E 02 98 FF 03 00 03 12",
        "position -1 due 50",
        receiver,
    )]
}
