//! Two sides beside each other: one list of calls on both, and the first
//! thing that differs.
use crate::{
    alter::Alteration,
    port::{Port, Shown},
};
use model::{Answer, Command, Format, State, Tx};
use std::fmt;

/// Where a list of calls begins.
#[derive(Clone, Debug, PartialEq)]
pub enum Start {
    Fresh,
    Given(State),
}

/// A list of calls and where it begins.
#[derive(Clone, Debug)]
pub struct Case {
    pub start: Start,
    pub calls: Vec<Command>,
}

/// What differs first.
#[derive(Clone, Debug)]
pub struct Difference {
    /// The call after which it differs; none for the start itself.
    pub call: Option<usize>,
    pub field: String,
    pub reference: String,
    pub port: String,
}

impl fmt::Display for Difference {
    fn fmt(&self, f: &mut fmt::Formatter<'_>) -> fmt::Result {
        match self.call {
            Some(call) => write!(f, "after call {}", call + 1)?,
            None => write!(f, "at the start")?,
        }
        write!(
            f,
            ", {}: reference {}, port {}",
            self.field, self.reference, self.port
        )
    }
}

/// One call that was the same on both sides.
pub struct Step<'a> {
    pub before: &'a State,
    pub call: Command,
    pub answer: Answer,
    pub after: &'a State,
    pub shown: &'a Shown,
    /// Whether the clock drive was left out.
    pub free: bool,
}

pub fn begin(side: &mut dyn Port, start: &Start) {
    match start {
        Start::Fresh => side.fresh(),
        Start::Given(state) => side.set(state),
    }
}

/// Run a case on both sides up to the first difference. An alteration is put
/// on what the reference shows.
pub fn play(
    reference: &mut dyn Port,
    port: &mut dyn Port,
    case: &Case,
    alteration: Option<&Alteration>,
    watch: &mut dyn FnMut(&Step),
) -> Result<(), Difference> {
    let begun = |side: &mut dyn Port| {
        begin(side, &case.start);
        side.prepare(&case.calls)?;
        Shown::of(side, Answer::Done(0))
    };
    let mut before = same(None, begun(reference), begun(port), false)?.state;
    let mut free = false;
    for (number, call) in case.calls.iter().enumerate() {
        let shown = |side: &mut dyn Port| {
            let answer = side.call(*call)?;
            Shown::of(side, answer)
        };
        let mut expected = shown(reference);
        let met = shown(port);
        if let Ok(expected) = &mut expected {
            // By the reference's own states, before they are altered.
            free = clock_free(free, &before, *call, expected);
            if let Some(alteration) = alteration {
                (alteration.apply)(&before, *call, expected);
            }
        }
        let after = same(Some(number), expected, met, free)?;
        watch(&Step {
            before: &before,
            call: *call,
            answer: after.answer,
            after: &after.state,
            shown: &after,
            free,
        });
        before = after.state;
    }
    Ok(())
}

/// The one part that document 01 leaves free: the clock drive after clocked
/// output has ended, until time passes or a reset.
fn clock_free(free: bool, before: &State, call: Command, shown: &Shown) -> bool {
    if matches!(shown.answer, Answer::Refused(_)) {
        return free;
    }
    let after = &shown.state;
    let clocked = |s: &State| s.scr & 2 == 0 && s.smr & 0x80 != 0;
    let output = |s: &State| s.scr & 2 == 0 && (s.scr & 1 != 0 || s.smr & 0x80 != 0);
    match call.kind {
        2 => free || clocked(before) && !output(after) && after.scr & 2 == 0,
        3 | 8 | 9 => free && call.a == 0,
        6 => free && !resets(before, call.a),
        7 => false,
        _ => free,
    }
}

/// Whether these power bits reset the port.
pub fn resets(s: &State, bits: u32) -> bool {
    s.module && bits & 1 == 0 || !s.reset_mode && bits & 8 != 0
}

fn same(
    call: Option<usize>,
    reference: Result<Shown, String>,
    port: Result<Shown, String>,
    free: bool,
) -> Result<Shown, Difference> {
    let difference = |field: &str, reference: String, port: String| Difference {
        call,
        field: field.into(),
        reference,
        port,
    };
    match (reference, port) {
        (Ok(reference), Ok(mut port)) => {
            if free {
                port.pins.clock = reference.pins.clock;
            }
            // Infrared: such a state fails the field test, and document 01
            // gives it no line level.
            if reference.state.ircr & 0x80 != 0 {
                port.pins.level = reference.pins.level;
            }
            if reference == port {
                return Ok(reference);
            }
            let (left, right) = (fields(&reference), fields(&port));
            let (at, (name, value)) = left
                .iter()
                .enumerate()
                .find(|(at, field)| right.get(*at) != Some(field))
                .expect("sides that differ differ in a field");
            let other = right.get(at).cloned().unwrap_or_default();
            // A part of a sender or receiver has no name on the other side
            // where the kinds of sender differ; its name is then shown too.
            let (value, other) = if *name == other.0 {
                (value.clone(), other.1)
            } else {
                (
                    format!("{name} {value}"),
                    format!("{} {}", other.0, other.1),
                )
            };
            Err(difference(name, value, other))
        }
        (reference, port) => {
            let text = |side: Result<Shown, String>| side.map_or_else(|e| e, |_| "a state".into());
            Err(difference("fault", text(reference), text(port)))
        }
    }
}

type Fields = Vec<(&'static str, String)>;

/// Everything compared, one value a line, in the order of the state.
fn fields(shown: &Shown) -> Fields {
    let s = &shown.state;
    let mut all: Fields = vec![(
        "answer",
        match shown.answer {
            Answer::Done(value) => format!("{value:02X}"),
            Answer::Refused(number) => format!("refused {number}"),
        },
    )];
    all.push(("cause", shown.cause.to_string()));
    all.extend(state_fields(s));
    all.push(("transmit level", shown.pins.level.to_string()));
    all.push(("clock drive", format!("{:?}", shown.pins.clock)));
    all.push(("receive enable", shown.pins.receive.to_string()));
    all.push(("interrupt", shown.interrupt.to_string()));
    all
}

fn due(half: Option<u32>) -> String {
    half.map_or("absent".into(), |half| half.to_string())
}

fn format_fields(all: &mut Fields, f: Format) {
    all.push(("clocked", f.synchronous.to_string()));
    all.push(("data bits", f.data.to_string()));
    all.push(("parity cell", f.parity.to_string()));
    all.push(("odd", f.odd.to_string()));
    all.push(("stops", f.stops.to_string()));
    all.push(("cell length", f.half_bit.to_string()));
}

pub fn state_fields(s: &State) -> Fields {
    let hex = |name, value: u8| (name, format!("{value:02X}"));
    let bit = |name, value: bool| (name, u8::from(value).to_string());
    let mut all = vec![
        hex("SPCR", s.spcr),
        hex("SMR", s.smr),
        hex("BRR", s.brr),
        hex("SCR", s.scr),
        hex("TDR", s.tdr),
        hex("SSR", s.ssr),
        hex("RDR", s.rdr),
        hex("SEMR", s.semr),
        hex("IRCR", s.ircr),
        hex("seen bits", s.seen),
        bit("module", s.module),
        bit("main clock", s.main),
        bit("subclock", s.sub),
        bit("reset mode", s.reset_mode),
        ("half count", s.half.to_string()),
        bit("phase", s.high),
        bit("edge bit", s.edge),
        (
            "holding place",
            s.holding
                .map_or("empty".into(), |byte| format!("{byte:02X}")),
        ),
    ];
    let name = match s.tx {
        None => "none",
        Some(Tx::Blocked { .. }) => "blocked",
        Some(Tx::Mark { .. }) => "mark",
        Some(Tx::Start { .. }) => "start",
        Some(Tx::Data { .. }) => "data",
        Some(Tx::Tail { .. }) => "tail",
    };
    all.push(("sender", name.into()));
    let (character, cell, next) = match s.tx {
        None => (None, None, None),
        Some(Tx::Blocked { character }) => (Some(character), None, None),
        Some(Tx::Mark { next }) => (None, None, Some(next)),
        Some(Tx::Start { character, next }) => (Some(character), None, Some(next)),
        Some(Tx::Data {
            character,
            cell,
            next,
        }) => (Some(character), Some(cell), next),
        Some(Tx::Tail { loaded, next }) => (loaded, None, next),
    };
    if let Some(cell) = cell {
        all.push(("sender cell", cell.to_string()));
    }
    all.push(("sender due half", due(next)));
    match character {
        None => all.push(("sender word", "none".into())),
        Some(character) => {
            all.push(("sender word", format!("{:X}", character.word)));
            format_fields(&mut all, character.format);
        }
    }
    match s.rx {
        None => all.push(("receiver", "none".into())),
        Some(rx) => {
            all.push(("receiver", "word".into()));
            all.push(("receive position", rx.position.to_string()));
            all.push(("receive value", format!("{:02X}", rx.value)));
            all.push(("receive parity", rx.parity.to_string()));
            all.push(("receive error", format!("{:02X}", rx.error)));
            all.push(("receive due half", due(rx.next)));
            format_fields(&mut all, rx.format);
        }
    }
    all.extend([
        bit("transmit line", s.uart),
        ("bit_start", s.bit_start.to_string()),
        bit("receive line", s.input),
        bit("clock pin", s.input_clock),
        bit("sck", s.sck),
        ("sync_next", due(s.sync_next)),
        ("words finished", s.transmitted.to_string()),
        ("words received", s.received.to_string()),
        ("ticks left", s.remaining.to_string()),
        ("system cycles", s.system.to_string()),
        ("watch cycles", s.watch.to_string()),
    ]);
    all
}

/// Whether a call counts halves or an edge: how many.
pub fn counted(step: &Step) -> u32 {
    match (step.answer, step.call.kind) {
        (Answer::Done(_), 3 | 5 | 8 | 9) => step.after.half.wrapping_sub(step.before.half),
        _ => 0,
    }
}
