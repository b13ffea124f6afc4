//! Document 01's own cases as direct calls on one side, with the figures that
//! the document prints, and document 02's rules of cycles with figures worked
//! out by hand.
use crate::port::Port;
use model::{
    Answer, CYCLES, Command, LIMIT, Rx, State, Tx, bytes, commands,
    document::{PRINTOUT, RUN, WORDS},
    format,
    registers::{SCR, SMR, TDR},
};

/// One case: what it is, the document's figure, and what the side gave.
pub struct Part {
    pub case: String,
    pub expected: String,
    pub met: String,
}

impl Part {
    pub fn agrees(&self) -> bool {
        self.expected == self.met
    }
}

type Result<T> = std::result::Result<T, String>;

/// A script of the papers as calls.
fn calls(script: &str) -> Vec<Command> {
    let script = bytes(script);
    let (calls, end) = commands(&script);
    assert_eq!(end, script.len(), "the scripts here can be read");
    calls
}

fn call(port: &mut dyn Port, kind: u32, a: u32, b: u32) -> Result<Answer> {
    port.call(Command { kind, a, b })
}

/// A fresh port after a script that is accepted.
fn after(port: &mut dyn Port, script: &str) -> Result<State> {
    port.fresh();
    onward(port, script)
}

fn onward(port: &mut dyn Port, script: &str) -> Result<State> {
    for c in calls(script) {
        if let Answer::Refused(number) = port.call(c)? {
            return Err(format!("kind {} is refused with {number}", c.kind));
        }
    }
    port.state()
}

/// The half at which `done` first holds, stepping one by one.
fn first_half(port: &mut dyn Port, done: fn(&State) -> bool) -> Result<String> {
    for _ in 0..2000 {
        let state = port.state()?;
        if done(&state) {
            return Ok(format!("half {}", state.half));
        }
        call(port, 3, 1, 0)?;
    }
    Ok("never".into())
}

fn refusal(answer: Answer) -> String {
    match answer {
        Answer::Done(value) => format!("accepted, {value:02X}"),
        Answer::Refused(number) => format!("refused {number}"),
    }
}

pub fn all(port: &mut dyn Port) -> Vec<Part> {
    let mut parts = Vec::new();
    let mut part = |case: String, expected: String, met: Result<String>| {
        let met = met.unwrap_or_else(|fault| fault);
        parts.push(Part {
            case,
            expected,
            met,
        });
    };

    // The seven words, each taken from the sender that has loaded it.
    for (smr, value, word) in WORDS {
        part(
            format!("SMR {smr:02X}, value {value:02X}"),
            format!("word {word:X}"),
            sent_word(port, smr.into(), value.into()),
        );
    }

    // TE set at half 64, at the edge and off it.
    for (script, half) in [
        ("06 03 03 40 02 9A FF 03 20", 384),
        ("06 03 03 40 07 02 9A FF 03 20", 416),
    ] {
        let met = after(port, script).and_then(|_| first_half(port, |s| s.tx.is_none()));
        part(format!("mark ends: {script}"), format!("half {half}"), met);
    }

    // The line falls: when the stop cell is sampled. It stays at space, so
    // that is a framing fault.
    for (script, half) in [
        ("06 03 02 9A FF 03 10 03 64 04 00", 404),
        ("06 03 02 9A FF 03 10 03 65 04 00", 406),
    ] {
        let met = after(port, script).and_then(|_| first_half(port, |s| s.ssr & 0x10 != 0));
        part(
            format!("stop sampled: {script}"),
            format!("half {half}"),
            met,
        );
    }

    // Framing faults and SSR writes, from a port that has received FF.
    let full = "06 03 02 9A FF 03 10 04 00 03 20 04 01 03 A0 02";
    let ssr = |s: State| format!("SSR {:02X}", s.ssr);
    let both = |s: State| format!("SSR {:02X}, RDR {:02X}", s.ssr, s.rdr);
    for (about, more, expected) in [
        ("a word received", "", "SSR C4, RDR FF"),
        ("SSR C4, framing fault", "04 00 03 C0 02", "SSR F4, RDR FF"),
        (
            "SSR 84, framing fault",
            "01 9D FF 03 04 00 03 C0 02",
            "SSR 94, RDR 00",
        ),
    ] {
        let met = after(port, &format!("{full} {more}")).map(both);
        part(about.into(), expected.into(), met);
    }
    for (about, more, expected) in [
        (
            "SSR C4 read, BF written",
            "01 9C FF 03 02 9C FF 03 BF 01",
            "SSR 84",
        ),
        ("SSR C4 not read, BF written", "02 9C FF 03 BF 01", "SSR C4"),
    ] {
        let met = after(port, &format!("{full} {more}")).map(ssr);
        part(about.into(), expected.into(), met);
    }

    let met = after(port, "06 03 03 FF FF 03").map(|s| format!("half {}", s.half));
    part("kind 3 takes FF FF 03".into(), "half 65535".into(), met);

    port.fresh();
    let fresh = match port.state() {
        Ok(fresh) => fresh,
        Err(fault) => {
            part("a fresh port".into(), "a state".into(), Err(fault));
            return parts;
        }
    };
    for (about, start, (kind, a, b), expected) in refusals(fresh) {
        part(
            about.into(),
            expected.into(),
            refused(port, start, kind, a, b),
        );
    }
    for (about, script, expected, show) in registers() {
        let met = after(port, script).map(|s| show(&s));
        part(format!("{about}: {script}"), expected.into(), met);
    }
    for (about, script, expected) in in_cycles() {
        let met = after(port, script).map(|s| counted(&s));
        part(format!("{about}: {script}"), expected.into(), met);
    }
    for (script, half) in [
        ("06 03 02 99 FF 03 00 08 20 02 9A FF 03 20", 352),
        ("06 03 02 99 FF 03 00 08 20 09 01 02 9A FF 03 20", 384),
    ] {
        let met = after(port, script).and_then(|_| first_half(port, |s| s.tx.is_none()));
        part(format!("mark ends: {script}"), format!("half {half}"), met);
    }
    part(
        "the printed run".into(),
        PRINTOUT.join(" / "),
        printed_run(port),
    );
    parts
}

fn sent_word(port: &mut dyn Port, smr: u32, value: u32) -> Result<String> {
    port.fresh();
    call(port, 6, 3, 0)?;
    call(port, 2, SMR, smr)?;
    call(port, 2, SCR, 0x20)?;
    call(port, 2, TDR, value)?;
    // Through the mark, if there is one, to the word's first cell.
    for _ in 0..2000 {
        if let Some(Tx::Data { character, .. }) = port.state()?.tx {
            return Ok(format!("word {:X}", character.word));
        }
        call(port, 3, 1, 0)?;
    }
    Ok("never sent".into())
}

/// What cycles count.
fn counted(s: &State) -> String {
    format!(
        "half {}, {} left, edge {}, cycles {} {}",
        s.half,
        s.remaining,
        u8::from(s.edge),
        s.system,
        s.watch
    )
}

/// Document 02, Two.
fn in_cycles() -> Vec<(&'static str, &'static str, &'static str)> {
    vec![
        ("fresh", "", "half 0, 256 left, edge 0, cycles 0 0"),
        (
            "the first half of a fresh port",
            "06 03 08 80 02",
            "half 1, 256 left, edge 1, cycles 256 0",
        ),
        (
            "one more",
            "06 03 08 80 02 08 01",
            "half 1, 255 left, edge 0, cycles 257 0",
        ),
        (
            "watch cycles do not count for the system clock",
            "06 03 09 80 02",
            "half 0, 256 left, edge 0, cycles 0 256",
        ),
        (
            "0 cycles keep the edge bit",
            "06 03 08 80 02 08 00 09 00",
            "half 1, 256 left, edge 1, cycles 256 0",
        ),
        (
            "cycles with the port off",
            "08 FF FF 03 09 05",
            "half 0, 256 left, edge 0, cycles 65535 5",
        ),
        (
            "BRR with RE on waits for the reload",
            "06 03 08 64 02 9A FF 03 10 02 99 FF 03 00 08 9D 01",
            "half 2, 1 left, edge 1, cycles 257 0",
        ),
        (
            "BRR with TE and RE off restarts the count",
            "06 03 08 64 02 99 FF 03 00 08 01",
            "half 1, 1 left, edge 1, cycles 101 0",
        ),
        (
            "dividers run freely",
            "08 0F 06 03 02 98 FF 03 02 02 99 FF 03 00 08 01",
            "half 1, 1 left, edge 1, cycles 16 0",
        ),
        (
            "system/64",
            "06 03 02 98 FF 03 03 02 99 FF 03 01 08 FF 01",
            "half 1, 1 left, edge 0, cycles 255 0",
        ),
        (
            "the watch clock",
            "06 05 02 98 FF 03 01 02 99 FF 03 09 09 0B",
            "half 1, 9 left, edge 0, cycles 0 11",
        ),
        (
            "another choice keeps what is left",
            "06 01 02 98 FF 03 02 06 03 02 98 FF 03 00 08 80 02",
            "half 1, 256 left, edge 1, cycles 256 0",
        ),
        (
            "kind 3 leaves a full count",
            "06 03 08 64 03 01",
            "half 1, 256 left, edge 1, cycles 100 0",
        ),
        (
            "kind 3 that counts nothing leaves the count",
            "06 03 08 64 06 01 03 01",
            "half 0, 156 left, edge 0, cycles 100 0",
        ),
        (
            "a reset leaves 256 and the totals",
            "06 03 02 99 FF 03 05 08 07 09 03 06 00",
            "half 0, 256 left, edge 0, cycles 7 3",
        ),
    ]
}

type Refusal = (&'static str, Option<State>, (u32, u32, u32), &'static str);

/// The rows of the refusal table that a direct call can meet, each with its
/// example and its near miss, and their order.
fn refusals(fresh: State) -> Vec<Refusal> {
    let at = |half| {
        Some(State {
            module: true,
            main: true,
            half,
            ..fresh
        })
    };
    // The only state at the limit with an external edge to come.
    let external = |half| at(half).map(|s| State { scr: 2, ..s });
    let receiving = |smr, position| {
        Some(State {
            rx: Some(Rx::at(position, format(smr, 0))),
            ..fresh
        })
    };
    let totals = |system, watch| {
        Some(State {
            system,
            watch,
            ..fresh
        })
    };
    let left = |remaining| Some(State { remaining, ..fresh });
    // Each system cycle counts a half.
    let due = |half| {
        at(half).map(|s| State {
            brr: 0,
            remaining: 1,
            ..s
        })
    };
    vec![
        ("row 1", None, (1, 0xffa5, 0), "refused 1"),
        ("row 1, write", None, (2, 0xff90, 0), "refused 1"),
        ("row 1, near", None, (1, 0xffa6, 0), "accepted, 00"),
        ("row 2", None, (3, 0x1_0000, 0), "refused 2"),
        ("row 2, near", None, (3, 0xffff, 0), "accepted, 00"),
        ("row 2, address", None, (1, 0x1_0000, 0), "refused 2"),
        ("row 2, value", None, (2, 0xff98, 256), "refused 2"),
        ("row 2, line", None, (4, 2, 0), "refused 2"),
        ("row 2, clock", None, (5, 2, 0), "refused 2"),
        ("row 2, clock and line", None, (5, 0, 2), "refused 2"),
        ("row 2, power", None, (6, 16, 0), "refused 2"),
        ("row 3", None, (2, 0xffa7, 0x80), "refused 3"),
        ("row 3, near", None, (2, 0xffa7, 0x7f), "accepted, 00"),
        ("row 4", at(LIMIT), (3, 1, 0), "refused 4"),
        ("row 4, near", at(LIMIT - 1), (3, 1, 0), "accepted, 00"),
        (
            "row 4, nothing passes",
            at(LIMIT),
            (3, 0, 0),
            "accepted, 00",
        ),
        (
            "row 4, whole n first",
            at(LIMIT - 5),
            (3, 6, 0),
            "refused 4",
        ),
        (
            "row 4, external edge",
            external(LIMIT),
            (5, 0, 1),
            "refused 4",
        ),
        (
            "row 4, external, near",
            external(LIMIT - 1),
            (5, 0, 1),
            "accepted, 00",
        ),
        ("row 8", receiving(0x20, 10), (7, 0, 0), "refused 8"),
        ("row 8, near", receiving(0x20, 9), (7, 0, 0), "accepted, 00"),
        (
            "8 before 2",
            receiving(0x20, 10),
            (3, 0x1_0000, 0),
            "refused 8",
        ),
        ("2 before 1", None, (2, 0xff90, 256), "refused 2"),
        ("2 before 3", None, (2, 0xffa7, 0x180), "refused 2"),
        ("2 before 4", at(LIMIT), (3, 0x1_0000, 0), "refused 2"),
        ("1 without 3", None, (2, 0xff90, 0x80), "refused 1"),
        ("row 2, system cycles", None, (8, 0x1_0000, 0), "refused 2"),
        ("row 2, watch cycles", None, (9, 0x1_0000, 0), "refused 2"),
        ("row 10", totals(CYCLES, 0), (8, 1, 0), "refused 10"),
        ("row 10, watch", totals(0, CYCLES), (9, 1, 0), "refused 10"),
        (
            "row 10, near",
            totals(CYCLES - 1, 0),
            (8, 1, 0),
            "accepted, 00",
        ),
        (
            "row 10, no cycle",
            totals(CYCLES, 0),
            (8, 0, 0),
            "accepted, 00",
        ),
        (
            "row 10, own clock",
            totals(0, CYCLES),
            (8, 1, 0),
            "accepted, 00",
        ),
        (
            "row 10, whole n first",
            totals(CYCLES - 5, 0),
            (8, 6, 0),
            "refused 10",
        ),
        ("row 4, a cycle", due(LIMIT), (8, 1, 0), "refused 4"),
        (
            "row 4, a cycle, near",
            due(LIMIT - 1),
            (8, 1, 0),
            "accepted, 00",
        ),
        (
            "row 4, cycles, whole n first",
            due(LIMIT - 5),
            (8, 6, 0),
            "refused 4",
        ),
        ("row 4, no half", due(LIMIT), (9, 1, 0), "accepted, 00"),
        (
            "10 before 4",
            due(LIMIT).map(|s| State {
                system: CYCLES,
                ..s
            }),
            (8, 1, 0),
            "refused 10",
        ),
        (
            "2 before 10",
            totals(CYCLES, 0),
            (8, 0x1_0000, 0),
            "refused 2",
        ),
        ("row 8, no ticks left", left(0), (7, 0, 0), "refused 8"),
        ("row 8, 257 ticks left", left(257), (7, 0, 0), "refused 8"),
        (
            "row 8, 256 ticks left",
            left(256),
            (7, 0, 0),
            "accepted, 00",
        ),
        (
            "row 8, system cycles",
            totals(CYCLES + 1, 0),
            (8, 0, 0),
            "refused 8",
        ),
        (
            "row 8, watch cycles",
            totals(0, CYCLES + 1),
            (8, 0, 0),
            "refused 8",
        ),
    ]
}

/// One call; a refusal must leave the state as it was.
fn refused(port: &mut dyn Port, start: Option<State>, kind: u32, a: u32, b: u32) -> Result<String> {
    match start {
        None => port.fresh(),
        Some(state) => port.set(&state),
    }
    let before = port.state()?;
    let answer = call(port, kind, a, b)?;
    if matches!(answer, Answer::Refused(_)) && port.state()? != before {
        return Ok("refused, and the state is changed".into());
    }
    Ok(refusal(answer))
}

type Fact = (
    &'static str,
    &'static str,
    &'static str,
    fn(&State) -> String,
);

/// What "The nine registers", "One half" and "Receiver" say.
fn registers() -> Vec<Fact> {
    fn smr(s: &State) -> String {
        format!("SMR {:02X}", s.smr)
    }
    fn sides(s: &State) -> String {
        let holding = s.holding.map_or("none".into(), |b| format!("{b:02X}"));
        let rx = s.rx.map_or("none".into(), |rx| rx.position.to_string());
        format!(
            "SSR {:02X}, sender {}, holding {holding}, receiver {rx}, line {}",
            s.ssr,
            s.tx.is_some(),
            u8::from(s.uart)
        )
    }
    fn kept(s: &State) -> String {
        format!(
            "SPCR {:02X}, line {}, clock pin {}, received {}, half {}, edge {}",
            s.spcr,
            u8::from(s.input),
            u8::from(s.input_clock),
            s.received,
            s.half,
            u8::from(s.edge)
        )
    }
    fn seen(s: &State) -> String {
        format!("SSR {:02X}, seen {:02X}", s.ssr, s.seen)
    }
    vec![
        ("module off, write", "02 98 FF 03 20", "SMR 00", smr),
        ("reset mode, write", "06 0B 02 98 FF 03 20", "SMR 00", smr),
        ("write", "06 03 02 98 FF 03 20", "SMR 20", smr),
        (
            "TDR with TE on",
            "06 03 02 9A FF 03 30 04 00 03 05 02 9B FF 03 12",
            "SSR 00, sender true, holding 12, receiver -1, line 1",
            sides,
        ),
        (
            "an unsent byte is replaced",
            "06 03 02 9A FF 03 30 04 00 03 05 02 9B FF 03 12 02 9B FF 03 34",
            "SSR 00, sender true, holding 34, receiver -1, line 1",
            sides,
        ),
        (
            "TE and RE off",
            "06 03 02 9A FF 03 30 04 00 03 05 02 9B FF 03 12 02 9A FF 03 00",
            "SSR 84, sender false, holding none, receiver none, line 1",
            sides,
        ),
        (
            "RE off alone",
            "06 03 02 9A FF 03 30 04 00 03 05 02 9B FF 03 12 02 9A FF 03 20",
            "SSR 00, sender true, holding 12, receiver none, line 1",
            sides,
        ),
        (
            "TDR with TE off",
            "06 03 02 9B FF 03 12",
            "SSR 84, sender false, holding none, receiver none, line 1",
            sides,
        ),
        (
            "module off keeps line, clock pin and tallies",
            "06 03 02 91 FF 03 10 02 9A FF 03 10 04 00 03 20 05 00 01 03 A0 02 04 00 06 02",
            "SPCR C0, line 0, clock pin 0, received 1, half 0, edge 0",
            kept,
        ),
        (
            "reset mode keeps SPCR too",
            "06 03 02 91 FF 03 10 02 9A FF 03 10 04 00 03 20 05 00 01 03 A0 02 04 00 06 0B",
            "SPCR D0, line 0, clock pin 0, received 1, half 0, edge 0",
            kept,
        ),
        (
            "both in one count as the module's",
            "06 03 02 91 FF 03 10 02 9A FF 03 10 04 00 03 20 05 00 01 03 A0 02 04 00 06 0A",
            "SPCR C0, line 0, clock pin 0, received 1, half 0, edge 0",
            kept,
        ),
        (
            "no reset: main clock off",
            "06 03 02 91 FF 03 10 03 05 06 01",
            "SPCR D0, line 1, clock pin 1, received 0, half 5, edge 1",
            kept,
        ),
        (
            "a counted edge sets the edge bit",
            "06 03 03 01",
            "SPCR C0, line 1, clock pin 1, received 0, half 1, edge 1",
            kept,
        ),
        (
            "kind 7 clears it",
            "06 03 03 01 07",
            "SPCR C0, line 1, clock pin 1, received 0, half 1, edge 0",
            kept,
        ),
        (
            "kind 3 that counts nothing clears it",
            "06 03 03 01 06 01 03 01",
            "SPCR C0, line 1, clock pin 1, received 0, half 1, edge 0",
            kept,
        ),
        (
            "kind 3 of 0 does not",
            "06 03 03 01 06 01 03 00",
            "SPCR C0, line 1, clock pin 1, received 0, half 1, edge 1",
            kept,
        ),
        ("reading SSR", "01 9C FF 03", "SSR 84, seen 84", seen),
        (
            "reading RDR clears RDRF and its seen bit",
            "06 03 02 9A FF 03 10 04 00 03 20 04 01 03 A0 02 01 9C FF 03 01 9D FF 03",
            "SSR 84, seen 84",
            seen,
        ),
    ]
}

/// The printed run: each record, and the half count at its end.
fn printed_run(port: &mut dyn Port) -> Result<String> {
    port.fresh();
    let mut lines = Vec::new();
    for c in calls(RUN) {
        let Answer::Done(answer) = port.call(c)? else {
            return Err(format!("kind {} is refused", c.kind));
        };
        let level = match port.pins()?.level {
            2 => "-".into(),
            level => level.to_string(),
        };
        lines.push(format!(
            "{} {answer:02X} {:02X} {level} {} {}",
            c.kind,
            port.state()?.ssr,
            u8::from(port.interrupt()?),
            port.cause()
        ));
    }
    lines.push(format!("end {}", port.state()?.half));
    Ok(lines.join(" / "))
}
