//! Document 01's own cases: the words, the facts under "More", the refusal
//! table and the printed run, with the figures that the document prints; and
//! document 02's, worked out by hand.
use crate::{
    Part,
    tools::{after, end, ends, sender, shows},
};
use model::{
    LIMIT, Oracle, Rx, State, Tx, bytes,
    document::{PRINTOUT, RUN, WORDS},
    format, play,
    registers::{SCR, SMR, TDR},
};

pub fn all() -> Vec<Part> {
    [
        words(),
        marks(),
        stops(),
        faults(),
        seen(),
        refusals(),
        registers(),
        vec![
            ends("06 03 03 FF FF 03", "end 65535"),
            ends("", "end 0"),
            printed_run(),
        ],
        lengths(),
        in_cycles(),
    ]
    .concat()
}

/// Document 02, One: the length is counted across resets, by the module and
/// by reset mode, and on the clock pin.
fn lengths() -> Vec<Part> {
    vec![
        ends("06 03 03 05 06 00 06 03 03 07", "end 12"),
        ends("06 03 03 05 06 0B", "end 5"),
        ends("06 03 02 9A FF 03 02 05 00 01 05 01 01 06 00", "end 2"),
    ]
}

/// Document 02, Two: a word begun at an edge that a cycle counted and off it,
/// BRR with RE on, a divider that has run before, another choice of clock.
fn in_cycles() -> Vec<Part> {
    let mut parts: Vec<Part> = [
        ("06 03 02 99 FF 03 00 08 20 02 9A FF 03 20", "half 352"),
        (
            "06 03 02 99 FF 03 00 08 20 09 01 02 9A FF 03 20",
            "half 384",
        ),
    ]
    .map(|(script, expected)| {
        let mut port = after(script);
        let met = first_half(&mut port, |s| s.tx.is_none());
        Part::new(format!("{script}: mark ends"), expected, met)
    })
    .to_vec();
    parts.extend([
        ends(
            "06 03 08 64 02 9A FF 03 10 02 99 FF 03 00 08 9D 01",
            "end 2",
        ),
        ends("08 0F 06 03 02 98 FF 03 02 02 99 FF 03 00 08 01", "end 1"),
        ends(
            "06 01 02 98 FF 03 02 06 03 02 98 FF 03 00 08 80 02",
            "end 1",
        ),
        ends("0A", "refused 7 at 0"),
        ends("08 80 80 04", "refused 2 at 0"),
    ]);
    parts
}

/// The seven words, each taken from the sender that has loaded it.
fn words() -> Vec<Part> {
    WORDS
        .map(|(smr, value, word)| {
            let mut port = Oracle::fresh();
            port.call(6, 3, 0);
            port.call(2, SMR, smr.into());
            port.call(2, SCR, 0x20);
            port.call(2, TDR, value.into());
            // Through the mark, if there is one, to the word's first cell.
            while !matches!(port.state().tx, Some(Tx::Data { .. })) {
                port.call(3, 1, 0);
            }
            let loaded = match port.state().tx {
                Some(Tx::Data { character, .. }) => format!("word {:X}", character.word),
                _ => sender(&port.state()),
            };
            Part::new(
                format!("SMR {smr:02X}, TDR {value:02X}"),
                format!("word {word:X}"),
                loaded,
            )
        })
        .to_vec()
}

/// The half at which `done` first holds, stepping one by one.
fn first_half(port: &mut Oracle, done: impl Fn(&State) -> bool) -> String {
    for _ in 0..2000 {
        if done(&port.state()) {
            return format!("half {}", port.state().half);
        }
        port.call(3, 1, 0);
    }
    "never".into()
}

/// TE set at half 64, at the edge and off it.
fn marks() -> Vec<Part> {
    [
        ("06 03 03 40 02 9A FF 03 20", "half 384"),
        ("06 03 03 40 07 02 9A FF 03 20", "half 416"),
    ]
    .map(|(script, expected)| {
        let mut port = after(script);
        Part::new(
            format!("{script}: mark ends"),
            expected,
            first_half(&mut port, |s| s.tx.is_none()),
        )
    })
    .to_vec()
}

/// A fall at half 100 and at 101: when the stop cell is sampled.
fn stops() -> Vec<Part> {
    [
        ("06 03 02 9A FF 03 10 03 64 04 00", "half 404"),
        ("06 03 02 9A FF 03 10 03 65 04 00", "half 406"),
    ]
    .map(|(script, expected)| {
        let mut port = after(script);
        Part::new(
            format!("{script}: stop sampled"),
            expected,
            // The line stays at space, so the stop cell is a framing fault.
            first_half(&mut port, |s| s.ssr & 0x10 != 0),
        )
    })
    .to_vec()
}

/// A framing fault with RDRF set and without. The first word is FF, the one
/// with the fault is 00.
fn faults() -> Vec<Part> {
    let full = "06 03 02 9A FF 03 10 04 00 03 20 04 01 03 A0 02";
    let fault = "04 00 03 C0 02";
    let both = |s: &State| format!("SSR {:02X}, RDR {:02X}", s.ssr, s.rdr);
    vec![
        shows(full, "SSR C4, RDR FF", both),
        shows(&format!("{full} {fault}"), "SSR F4, RDR FF", both),
        shows(
            &format!("{full} 01 9D FF 03 {fault}"),
            "SSR 94, RDR 00",
            both,
        ),
    ]
}

/// SSR C4, TE off, BF written.
fn seen() -> Vec<Part> {
    let full = "06 03 02 9A FF 03 10 04 00 03 20 04 01 03 A0 02";
    let ssr = |s: &State| format!("SSR {:02X}", s.ssr);
    vec![
        shows(
            &format!("{full} 01 9C FF 03 02 9C FF 03 BF 01"),
            "SSR 84",
            ssr,
        ),
        shows(&format!("{full} 02 9C FF 03 BF 01"), "SSR C4", ssr),
    ]
}

/// The refusal table's examples.
fn refusals() -> Vec<Part> {
    let fresh = Oracle::fresh().state();
    let last = State {
        module: true,
        main: true,
        half: LIMIT,
        ..fresh
    };
    let tenth = State {
        rx: Some(Rx::at(10, format(0x20, 0))),
        ..fresh
    };
    let on = |state: &State, script: &str| end(&mut Oracle::from_state(state), script);
    let short = play(&mut Oracle::fresh(), &bytes("07"), &mut [0; 4])
        .map_or_else(|fault| fault.to_string(), |run| run.last_line());
    vec![
        ends("01 A5 FF 03", "refused 1 at 0"),
        ends("03 80 80 04", "refused 2 at 0"),
        ends("02 A7 FF 03 80 01", "refused 3 at 0"),
        Part::new(
            "state at 4000000000: 03 01",
            "refused 4 at 0",
            on(&last, "03 01"),
        ),
        Part::new(
            "state one below: 03 01",
            "end 1",
            on(
                &State {
                    half: LIMIT - 1,
                    ..last
                },
                "03 01",
            ),
        ),
        ends("03", "refused 5 at 0"),
        ends("80 00", "refused 6 at 0"),
        ends("08", "refused 5 at 0"),
        Part::new(
            "receive position 10: 07",
            "refused 8 at 0",
            on(&tenth, "07"),
        ),
        Part::new("07 with a log of 4 bytes", "refused 9 at 0", short),
    ]
}

/// What "The nine registers" says of writes, reads and resets.
fn registers() -> Vec<Part> {
    let receiving = "06 03 02 9A FF 03 30 04 00 03 05 02 9B FF 03 12";
    let whole = |s: &State| {
        format!(
            "SSR {:02X}, {}, holding {}, {}",
            s.ssr,
            sender(s),
            crate::tools::hex(s.holding),
            crate::tools::receiver(s)
        )
    };
    vec![
        shows("02 98 FF 03 20", "SMR 00", |s| format!("SMR {:02X}", s.smr)),
        shows("06 0B 02 98 FF 03 20", "SMR 00", |s| {
            format!("SMR {:02X}", s.smr)
        }),
        shows(
            receiving,
            "SSR 00, mark to 352, holding 12, position -1 due 16",
            whole,
        ),
        shows(
            &format!("{receiving} 02 9A FF 03 00"),
            "SSR 84, no sender, holding none, no receiver",
            whole,
        ),
        shows(
            &format!("{receiving} 02 9B FF 03 34"),
            "SSR 00, mark to 352, holding 34, position -1 due 16",
            whole,
        ),
        shows(
            &format!("{receiving} 06 02"),
            "SSR 84, no sender, holding none, no receiver",
            whole,
        ),
    ]
}

/// The printed run, whole.
fn printed_run() -> Part {
    let met = match crate::printed(&bytes(RUN)) {
        Ok((lines, _)) => lines.replace('\n', " / "),
        Err(fault) => fault.to_string(),
    };
    Part::new(RUN, PRINTOUT.join(" / "), met)
}
