//! A state given is the state had, it is the whole port, and a state that
//! fails one clause of the field test is refused and kept.
use model::{
    Answer, CYCLES, Character, Command, LIMIT, Oracle, Rx, State, Tx, counting, cycles, field_test,
    format, halves,
    registers::BRR,
    sample::{self, Random},
    word,
};
use reference::AnySci as _;
use reference::counters::{clocks::Clocks, sci::Sci};

#[test]
fn given_state_is_had() {
    for seed in 0..20_000 {
        let state = sample::state(&mut Random::new(seed));
        assert_eq!(field_test(&state), Ok(()), "{state:?}");
        assert_eq!(Oracle::from_state(&state).state(), state);
    }
}

/// A port made anew on the counters from a fresh state is a fresh port.
#[test]
fn a_fresh_port_on_the_counters_is_fresh() {
    let clocks = Clocks::new([0; 2]);
    let fresh = Oracle::fresh().state();
    let anew = Sci::oracle_from_state(&fresh, clocks.now(), &clocks);
    assert_eq!(anew, Sci::default());
}

/// The calls of a seed, and a port for them, prepared: without cycles, with
/// cycles in place of waits, or with both.
fn list(seed: u64) -> (Oracle, Vec<Command>) {
    let r = &mut Random::new(seed);
    let mut port = Oracle::fresh();
    if seed % 2 == 1 {
        port = Oracle::from_state(&sample::state(r));
    }
    let mut calls = sample::opening(r);
    let brr = r.pick(&[0, 0, 1, 3, 255]);
    calls.insert(
        1,
        Command {
            kind: 2,
            a: BRR,
            b: brr,
        },
    );
    for _ in 0..60 {
        let c = sample::call(r);
        calls.push(match seed % 3 {
            1 if c.kind == 3 => sample::cycles(r),
            2 if r.one_in(4) => sample::cycles(r),
            _ => c,
        });
    }
    port.prepare(calls.iter().map(|c| c.kind))
        .expect("a port has a state");
    (port, calls)
}

/// What is not kept (time, where in a tick a count began, the cached edge)
/// decides nothing: a port made anew from its state before each call goes on
/// like the port itself.
#[test]
fn state_is_whole() {
    for seed in 0..3000 {
        let (mut port, calls) = list(seed);
        for c in calls {
            let mut anew = Oracle::from_state(&port.state());
            let answers = (port.call(c.kind, c.a, c.b), anew.call(c.kind, c.a, c.b));
            assert_eq!(answers.0, answers.1, "seed {seed}, {c:?}");
            assert_eq!(port.state(), anew.state(), "seed {seed}, {c:?}");
            assert_eq!(
                (port.level(), port.clock_drive(), port.interrupt()),
                (anew.level(), anew.clock_drive(), anew.interrupt()),
                "seed {seed}, {c:?}"
            );
        }
    }
}

/// The ticks left after an accepted call, by document 02's rules: our own
/// second writing beside the reference's counter.
fn remaining(before: &State, c: Command, after: &State) -> u16 {
    let full = |s: &State| u16::from(s.brr) + 1;
    match c.kind {
        2 if c.a == BRR && before.module && !before.reset_mode && before.scr & 0x30 == 0 => {
            full(after)
        }
        3 if after.half != before.half => full(after),
        6 if before.module && !after.module || after.reset_mode && !before.reset_mode => 256,
        8 | 9 => {
            let mut s = *before;
            for _ in 0..c.a {
                s = cycle(&s, c.kind);
            }
            s.remaining
        }
        _ => before.remaining,
    }
}

/// Totals and count after one cycle, one rule after the other.
fn cycle(s: &State, kind: u32) -> State {
    let mut after = *s;
    let total = match kind {
        8 => &mut after.system,
        _ => &mut after.watch,
    };
    *total += 1;
    let (chosen, divider) = [(8, 1), (9, 1), (8, 16), (8, 64)][usize::from(s.smr & 3)];
    if counting(s) && kind == chosen && *total % divider == 0 {
        after.remaining -= 1;
        if after.remaining == 0 {
            after.remaining = u16::from(s.brr) + 1;
        }
    }
    after
}

/// The count, the totals and the edge bit go by the rules, and the halves are
/// those that the refusals count ahead.
#[test]
fn counts_go_by_the_rules() {
    let mut met = [0; 4];
    for seed in 0..6000 {
        let (mut port, calls) = list(seed);
        for c in calls {
            let before = port.state();
            if let Answer::Done(_) = port.call(c.kind, c.a, c.b) {
                let after = port.state();
                let of = |kind| u64::from(if c.kind == kind { c.a } else { 0 });
                let about = format!("seed {seed}, {c:?}, {before:?}");
                assert_eq!(after.remaining, remaining(&before, c, &after), "{about}");
                assert_eq!(after.system, before.system + of(8), "{about}");
                assert_eq!(after.watch, before.watch + of(9), "{about}");
                if let Some(clock) = cycles(c.kind) {
                    let counted = halves(&before, clock, c.a.into());
                    assert_eq!(u64::from(after.half - before.half), counted, "{about}");
                    let last = match c.a {
                        0 => before.edge,
                        n => counted > halves(&before, clock, u64::from(n) - 1),
                    };
                    assert_eq!(after.edge, last, "{about}");
                    met[usize::from(counted > 0) + 2 * usize::from(last)] += 1;
                }
            }
        }
    }
    assert!(met.iter().all(|count| *count > 100), "{met:?}");
}

/// A cycle that counts a half is kind 3 of one half, any other is kind 7: so
/// says the reference on its own clocks of what it does on the counters.
#[test]
fn cycles_are_halves_and_time_inside_them() {
    let mut halves = 0;
    for seed in (0..600).map(|n| 3 * n + 1) {
        let (mut port, calls) = list(seed);
        let mut beside = Oracle::from_state(&port.state());
        for c in calls {
            let singles = match c.kind {
                8 | 9 => vec![Command { a: 1, ..c }; c.a as usize],
                _ => vec![c],
            };
            for c in singles {
                let before = port.state().half;
                let answer = port.call(c.kind, c.a, c.b);
                let counted = port.state().half != before;
                let other = match c.kind {
                    // A refused one passes nothing.
                    8 | 9 if answer != Answer::Done(0) => continue,
                    8 | 9 if counted => beside.call(3, 1, 0),
                    8 | 9 => beside.call(7, 0, 0),
                    _ => beside.call(c.kind, c.a, c.b),
                };
                halves += u32::from(counted && c.kind != 5);
                let expected = port.state();
                let met = State {
                    remaining: expected.remaining,
                    system: expected.system,
                    watch: expected.watch,
                    ..beside.state()
                };
                assert_eq!((answer, expected), (other, met), "seed {seed}, {c:?}");
            }
        }
    }
    assert!(halves > 10_000, "{halves}");
}

fn failing() -> Vec<(&'static str, State)> {
    let fresh = Oracle::fresh().state();
    let (eight, clocked) = (format(0, 0), format(0x80, 0));
    let character = Character {
        format: eight,
        word: word(eight, 0x55),
    };
    let clocked_character = Character {
        format: clocked,
        word: 0x55,
    };
    let rx = Rx::at(0, eight);
    let tx = |tx| State {
        tx: Some(tx),
        ..fresh
    };
    let with_rx = |rx| State {
        rx: Some(rx),
        ..fresh
    };
    let data = |character, cell, next| {
        tx(Tx::Data {
            character,
            cell,
            next,
        })
    };
    vec![
        (
            "half count",
            State {
                half: LIMIT + 1,
                ..fresh
            },
        ),
        (
            "SPCR",
            State {
                spcr: 0x80,
                ..fresh
            },
        ),
        (
            "SPCR",
            State {
                spcr: 0xc4,
                ..fresh
            },
        ),
        ("SCR", State { scr: 8, ..fresh }),
        ("SEMR", State { semr: 1, ..fresh }),
        (
            "IRCR",
            State {
                ircr: 0x80,
                ..fresh
            },
        ),
        ("SSR", State { ssr: 0x85, ..fresh }),
        ("seen", State { seen: 2, ..fresh }),
        (
            "word",
            tx(Tx::Blocked {
                character: Character {
                    word: 0x2ab,
                    ..character
                },
            }),
        ),
        (
            "format",
            with_rx(Rx {
                format: model::Format { data: 6, ..eight },
                ..rx
            }),
        ),
        ("cell", data(character, 9, Some(1))),
        ("clocked cell", data(clocked_character, 8, None)),
        ("position", with_rx(Rx { position: -3, ..rx })),
        ("position", with_rx(Rx { position: 9, ..rx })),
        (
            "clocked position",
            with_rx(Rx {
                format: clocked,
                position: 8,
                next: None,
                ..rx
            }),
        ),
        (
            "clocked position",
            with_rx(Rx {
                format: clocked,
                position: -1,
                next: None,
                ..rx
            }),
        ),
        ("error", with_rx(Rx { error: 0x10, ..rx })),
        (
            "bit_start",
            State {
                bit_start: 1,
                ..fresh
            },
        ),
        ("mark due now", tx(Tx::Mark { next: 0 })),
        ("mark due 449", tx(Tx::Mark { next: 449 })),
        ("start due", tx(Tx::Start { character, next: 0 })),
        ("data due absent", data(character, 0, None)),
        ("clocked data due", data(clocked_character, 0, Some(1))),
        (
            "tail due",
            tx(Tx::Tail {
                loaded: None,
                next: Some(449),
            }),
        ),
        ("receiver due absent", with_rx(Rx { next: None, ..rx })),
        (
            "receiver due",
            with_rx(Rx {
                next: Some(449),
                ..rx
            }),
        ),
        (
            "clocked receiver due",
            with_rx(Rx {
                format: clocked,
                ..rx
            }),
        ),
        (
            "clocked edge due",
            State {
                sync_next: Some(0),
                ..fresh
            },
        ),
        (
            "no ticks left",
            State {
                remaining: 0,
                ..fresh
            },
        ),
        (
            "257 ticks left",
            State {
                remaining: 257,
                ..fresh
            },
        ),
        (
            "system cycles",
            State {
                system: CYCLES + 1,
                ..fresh
            },
        ),
        (
            "watch cycles",
            State {
                watch: u64::MAX,
                ..fresh
            },
        ),
    ]
}

#[test]
fn failing_states_are_refused_and_kept() {
    for (clause, state) in failing() {
        assert!(field_test(&state).is_err(), "{clause}");
        let mut port = Oracle::from_state(&state);
        for (kind, a, b) in [
            (1, 0xff9c, 0),
            (2, 1 << 20, 0),
            (3, 1, 0),
            (6, 3, 0),
            (8, 1, 0),
            (9, 0, 0),
            (10, 0, 0),
        ] {
            assert_eq!(port.call(kind, a, b), Answer::Refused(8), "{clause}");
            assert_eq!(port.state(), state, "{clause}");
        }
    }
}

/// 2 before 1, 1 before 3, 10 and 4; 4 to the edge of the limit.
#[test]
fn direct_refusals() {
    let last = State {
        module: true,
        main: true,
        half: LIMIT - 5,
        brr: 0,
        remaining: 1,
        system: CYCLES - 7,
        watch: CYCLES,
        ..Oracle::fresh().state()
    };
    for (kind, a, b, number) in [
        (1, 0x1_0000, 0, Some(2)),
        (1, 0xff90, 0, Some(1)),
        (2, 0xff90, 256, Some(2)),
        (2, 0xff90, 0x80, Some(1)),
        (2, 0xffa7, 0x80, Some(3)),
        (3, 0x1_0000, 0, Some(2)),
        (3, 6, 0, Some(4)),
        (3, 5, 0, None),
        (4, 2, 0, Some(2)),
        (5, 0, 2, Some(2)),
        (6, 16, 0, Some(2)),
        (0, 0, 0, Some(7)),
        (10, 0, 0, Some(7)),
        (8, 0x1_0000, 0, Some(2)),
        (9, 0x1_0000, 0, Some(2)),
        // Both 10 and 4 hold; then 4 alone, then neither.
        (8, 8, 0, Some(10)),
        (8, 7, 0, Some(4)),
        (8, 6, 0, Some(4)),
        (8, 5, 0, None),
        (9, 1, 0, Some(10)),
        (9, 0, 0, None),
    ] {
        let mut port = Oracle::from_state(&last);
        let answer = port.call(kind, a, b);
        match number {
            Some(number) => {
                assert_eq!(answer, Answer::Refused(number), "{kind} {a} {b}");
                assert_eq!(port.state(), last, "{kind} {a} {b}");
            }
            None => assert_eq!(answer, Answer::Done(0), "{kind} {a} {b}"),
        }
    }
}
