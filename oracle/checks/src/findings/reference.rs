//! Findings 1 and 2: faults and limits in the reference itself.
use crate::{
    Part,
    tools::{end, run, setup},
};
use model::{Fault, Habits, Oracle, SECOND, Setup, bytes, commands};

/// 1: a change of clock misses a half where two clocks' tick counts meet.
pub fn cached_edge() -> Vec<Part> {
    let together = "06 01 02 98 FF 03 02 06 03 02 98 FF 03 00 03 01";
    // System/16 waits for count 17 + 256, then the system clock, given one
    // tick to wait for, for 272 + 1: the same number, later than time zero.
    let apart = "06 01 02 98 FF 03 02 06 03 06 01 02 99 FF 03 00 02 98 FF 03 00 06 03 03 01";
    let tick_272 = 272 * SECOND / 3_686_400;
    let missed = "stays at half 0";
    // On the counters, which begin together at 0, the first in cycles.
    let cycles = "06 01 02 98 FF 03 02 06 03 02 98 FF 03 00 08 80 02";
    let played = |start: &str, mut port: Oracle, script: &str, expected: &str| {
        let met = match run(&mut port, script) {
            Err(Fault::Counted { from, to }) if from == to => format!("stays at half {to}"),
            Err(fault) => fault.to_string(),
            Ok(run) => run.last_line(),
        };
        Part::new(format!("{start}: {script}"), expected, met)
    };
    let part = |start: &str, setup: Setup, script: &str, expected: &str| {
        played(start, Oracle::fresh_with(setup), script, expected)
    };
    vec![
        played(
            "counters with one revision",
            Oracle::fresh_on_standing_revision(),
            cycles,
            missed,
        ),
        played(
            "counters with a new revision each time",
            Oracle::fresh(),
            cycles,
            "end 1",
        )
        .of(cycles),
        part(
            "clocks and port from 1 s",
            setup(SECOND, SECOND),
            together,
            missed,
        ),
        part(
            "clocks from 0, port from tick 272",
            setup(0, tick_272),
            apart,
            missed,
        ),
        part(
            "clocks from 0, port from 1 s",
            setup(0, SECOND),
            together,
            "end 1",
        ),
        part("port from 1000 s", Setup::default(), together, "end 1").of(together),
        part("port from 1000 s", Setup::default(), apart, "end 1").of(apart),
    ]
}

/// 2: the optical log, which only the extra pass fills, holds 64 changes.
pub fn log_overflow() -> Vec<Part> {
    let opening = "06 03 02 91 FF 03 10 02 9A FF 03 30 02 9B FF 03 55 03 D0 02";
    let round = "04 00 03 A0 02 02 9B FF 03 55 04 01 03 20 01 9D FF 03";
    let script = format!("{opening}{}", format!(" {round}").repeat(7));
    let mut undrained = Oracle::fresh_with(Setup {
        habits: Habits {
            drain: false,
            ..Habits::default()
        },
        ..Setup::default()
    });
    let met = end(&mut undrained, &script);
    // The drained port counts the changes up to the same half.
    let mut drained = Oracle::fresh();
    let stopped = undrained.state().half;
    for command in commands(&bytes(&script)).0 {
        if command.kind == 3 {
            for _ in 0..command.a {
                if drained.state().half < stopped {
                    drained.call(3, 1, 0);
                }
            }
        } else if drained.state().half < stopped {
            drained.call(command.kind, command.a, command.b);
        }
    }
    let whole = match run(&mut Oracle::fresh(), &script) {
        Ok(run) => format!("drained: {} records", run.records),
        Err(fault) => format!("drained: {fault}"),
    };
    let input = format!("{opening}, seven times {round}");
    vec![
        Part::new(
            format!("undrained: {input}"),
            "the reference answers Err(Internal(\"SCI optical log overflow\"))",
            met,
        ),
        Part::new(
            "the same, changes up to that half",
            "65 changes",
            format!("{} changes", drained.drained()),
        ),
        Part::new(format!("drained: {input}"), "drained: 47 records", whole).of(&script),
    ]
}
