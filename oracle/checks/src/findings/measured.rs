//! What one input alone cannot show: findings 3, 4, 19 and a part of 14, the
//! field test and `bit_start`, measured on random runs from fresh ports and from
//! given states.
use super::runs::{Sample, count, none, shown};
use crate::{
    Part,
    tools::{after, receiver, run, sender, shows},
};
use model::{
    Answer, Character, ClockDrive, Fault, Habits, LIMIT, Oracle, Pass, Rx, Setup, State, Tx,
    field_test as test_8, format, word,
};

fn stepping(pass: Pass) -> Habits {
    Habits {
        pass,
        ..Habits::default()
    }
}

/// 3: the extra pass changes nothing.
pub fn extra_pass(size: u32) -> Vec<Part> {
    let usual = Habits::default();
    let without = stepping(Pass::WithoutExtraPass);
    vec![
        none(
            format!("{size} lists from fresh ports, with and without the pass"),
            count(size, Sample::fresh, |s| s.differs(usual, without)),
        ),
        none(
            format!("{size} given states, with and without the pass"),
            count(size, Sample::given, |s| s.differs(usual, without)),
        ),
    ]
}

/// 4: the order of work in a half shows.
pub fn order(size: u32) -> Vec<Part> {
    // Rare in lists, so a small size would show none.
    let enough = size.max(500);
    let swapped = count(enough, Sample::fresh, |s| {
        s.differs(Habits::default(), stepping(Pass::EdgeFirst))
    });
    let mut parts = vec![Part::new(
        format!("{enough} lists from fresh ports, clocked edge first"),
        "some differ",
        match swapped {
            Ok(0) => "0 differ".into(),
            Ok(_) => "some differ".into(),
            Err(fault) => fault,
        },
    )];
    for (pass, show, script, right, wrong) in ORDERS {
        let mut port = Oracle::fresh_with(Setup {
            habits: stepping(*pass),
            ..Setup::default()
        });
        let other = match run(&mut port, script) {
            Ok(_) => show(&port.state()),
            Err(fault) => fault.to_string(),
        };
        parts.push(shows(script, right, show));
        parts.push(Part::new(format!("{pass:?}: {script}"), *wrong, other));
    }
    // The same on an edge of the clock pin.
    parts.push(shows(
        "06 03 02 9A FF 03 20 02 9B FF 03 01 02 98 FF 03 80 01 03 DF 02 02 9A FF 03 22 05 00 01",
        "data 1 due none",
        sender,
    ));
    parts
}

type Show = fn(&State) -> String;

/// Another order, a script that shows it, and what the reference and the other
/// order then give: a start-stop word ends in clocked mode, where the edge of
/// the same half takes the next word's first bit; mark ends at a falling edge,
/// which puts a clocked byte's first bit on the line; mark ends with a clocked
/// byte held at the half at which a framing fault ends a word.
const ORDERS: &[(Pass, Show, &str, &str, &str)] = &[
    (
        Pass::EdgeFirst,
        receiver,
        "06 03 04 00 02 9A FF 03 10 03 10 02 98 FF 03 80 01 04 01 03 A0 02",
        "position 1 due none",
        "no receiver",
    ),
    (
        Pass::EdgeFirst,
        sender,
        "06 03 02 9A FF 03 30 02 9B FF 03 01 03 DE 02 02 98 FF 03 80 01 03 02",
        "data 1 due none",
        "data 0 due none",
    ),
    (
        Pass::ReceiverFirst,
        sender,
        "06 03 02 9A FF 03 30 02 9B FF 03 01 03 30 04 00 03 04 02 98 FF 03 80 01 03 AC 02",
        "data 0 due none",
        "no sender",
    ),
];

/// 14, in part: in a grown port the refresh of kind 6 changes nothing.
pub fn power_refresh(size: u32) -> Part {
    let changed = |s: &Sample| {
        let mut port = s.port(Habits::default());
        for c in &s.calls {
            let before = port.try_state()?;
            port.try_call(c.kind, c.a, c.b)?;
            let after = port.try_state()?;
            let reset =
                (before.module && !after.module) || (after.reset_mode && !before.reset_mode);
            let powered = State {
                module: after.module,
                main: after.main,
                sub: after.sub,
                reset_mode: after.reset_mode,
                ..before
            };
            if c.kind == 6 && !reset && after != powered {
                return Ok(true);
            }
        }
        Ok(false)
    };
    none(
        format!("{size} lists from fresh ports, kind 6 without reset"),
        count(size, Sample::fresh, changed),
    )
}

/// The field test against `validate`, and that every call keeps it.
pub fn field_test(size: u32) -> Vec<Part> {
    let kept = |s: &Sample| {
        let mut port = s.port(Habits::default());
        let sound = |port: &Oracle| {
            let passes = test_8(&port.try_state()?).is_ok();
            Ok::<bool, Fault>(passes && port.validate().is_ok())
        };
        let mut all = sound(&port)?;
        for c in &s.calls {
            port.try_call(c.kind, c.a, c.b)?;
            all &= sound(&port)?;
        }
        Ok(!all)
    };
    let mut parts = vec![
        none(
            format!("{size} lists from fresh ports: field test and validate after each call"),
            count(size, Sample::fresh, kept),
        ),
        none(
            format!("{size} given states: the same"),
            count(size, Sample::given, kept),
        ),
    ];
    for (what, state) in stricter() {
        let port = Oracle::from_state(&state);
        parts.push(Part::new(
            format!("fresh but for {what}"),
            "8, validate passes",
            format!(
                "{}, validate {}",
                match port.clone().call(7, 0, 0) {
                    Answer::Refused(number) => number.to_string(),
                    Answer::Done(_) => "accepted".into(),
                },
                if port.validate().is_ok() {
                    "passes"
                } else {
                    "fails"
                }
            ),
        ));
    }
    parts
}

/// States that fail the field test where `validate` has no objection.
fn stricter() -> Vec<(&'static str, State)> {
    let fresh = Oracle::fresh().state();
    let eight = format(0, 0);
    let rx = Rx::at(0, eight);
    let blocked = Tx::Blocked {
        character: Character {
            format: eight,
            // Start cell one: inside ten cells, but no value's word.
            word: word(eight, 0) | 1,
        },
    };
    vec![
        (
            "a word of no value",
            State {
                tx: Some(blocked),
                ..fresh
            },
        ),
        (
            "receive error 10",
            State {
                rx: Some(Rx { error: 0x10, ..rx }),
                ..fresh
            },
        ),
        (
            "due half 449 above",
            State {
                rx: Some(Rx {
                    next: Some(449),
                    ..rx
                }),
                ..fresh
            },
        ),
        (
            "IRCR 80",
            State {
                ircr: 0x80,
                ..fresh
            },
        ),
        (
            "half count past the limit",
            State {
                half: LIMIT + 1,
                ..fresh
            },
        ),
    ]
}

/// 19: the clock pin's excursion reaches neither log nor state.
pub fn glitch(size: u32) -> Vec<Part> {
    let glitching = Habits {
        end_glitch: false,
        ..Habits::default()
    };
    let script = "06 03 02 98 FF 03 80 01 02 98 FF 03 00";
    let mut port = Oracle::fresh_with(Setup {
        habits: glitching,
        ..Setup::default()
    });
    let ended = run(&mut port, script).is_ok()
        && port.glitch()
        && port.clock_drive() == ClockDrive::Low
        && port.state() == after(script).state();
    let expected = "clock pin low, state the same";
    vec![
        Part::new(script, expected, if ended { expected } else { "otherwise" }).of(script),
        none(
            format!("{size} lists from fresh ports, excursion kept and ended"),
            count(size, Sample::fresh, |s| {
                s.differs(Habits::default(), glitching)
            }),
        ),
    ]
}

/// What reads `bit_start`, and what moves it.
pub fn bit_start(size: u32) -> Vec<Part> {
    let sending = "06 03 03 05 02 98 FF 03 80 01 02 9A FF 03 20 02 9B FF 03 00";
    let drive = |s: &State| format!("{}, bit_start {}", sender(s), s.bit_start);
    vec![
        none(
            format!("{size} given states, two values of bit_start"),
            count(size, Sample::given, reads_bit_start),
        ),
        none(
            format!("{size} lists from fresh ports, bit_start moving otherwise"),
            count(size, Sample::fresh, moves_bit_start),
        ),
        shows(sending, "data 0 due none, bit_start 0", drive),
        shows(
            &format!("{sending} 03 02"),
            "data 1 due none, bit_start 7",
            drive,
        ),
        shows(
            &format!("{sending} 03 02 06 0B"),
            "no sender, bit_start 0",
            drive,
        ),
    ]
}

/// Whether anything but `bit_start` itself depends on `bit_start`. Once it
/// has moved the two runs are the same.
fn reads_bit_start(s: &Sample) -> Result<bool, Fault> {
    let mut one = s.port(Habits::default());
    let state = State {
        bit_start: 0,
        ..one.try_state()?
    };
    let mut other = Oracle::from_state(&state);
    for c in &s.calls {
        let answers = (
            one.try_call(c.kind, c.a, c.b)?,
            other.try_call(c.kind, c.a, c.b)?,
        );
        let blind = |port: &Oracle| {
            let (state, level, interrupt) = shown(port)?;
            let state = State {
                bit_start: 0,
                ..state
            };
            Ok::<_, Fault>((state, level, interrupt))
        };
        if answers.0 != answers.1 || blind(&one)? != blind(&other)? {
            return Ok(true);
        }
    }
    Ok(false)
}

/// Whether `bit_start` ever moves but to the half of a cell just driven (the
/// sender is then in data or tail) or, by a power command, to 0.
fn moves_bit_start(s: &Sample) -> Result<bool, Fault> {
    let mut port = s.port(Habits::default());
    for c in &s.calls {
        let (times, a) = if c.kind == 3 { (c.a, 1) } else { (1, c.a) };
        for _ in 0..times {
            let before = port.try_state()?;
            port.try_call(c.kind, a, c.b)?;
            let after = port.try_state()?;
            let driven = after.bit_start == after.half
                && matches!(after.tx, Some(Tx::Data { .. } | Tx::Tail { .. }));
            let reset = c.kind == 6 && after.bit_start == 0;
            if after.bit_start != before.bit_start && !driven && !reset {
                return Ok(true);
            }
        }
    }
    Ok(false)
}
