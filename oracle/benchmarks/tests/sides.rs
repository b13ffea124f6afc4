//! Each side of each case ends where the oracle ends, and each case does what
//! its name says.
use benchmarks::{
    cases::{Case, PLANS, Plan, Unit, longest},
    sides::{CALLING, Kind, Outcome, PLAYING, side},
};
use model::{Oracle, RECORD};

/// The whole script; of the idle waits, which take the oracle long, a few.
fn case(plan: &Plan) -> Case {
    match plan.unit {
        Unit::Wait => plan.of_rounds(2 * plan.counted),
        Unit::Word | Unit::Call => plan.case(),
    }
}

/// The oracle's player, which tests every step; and the run's length.
fn oracle(case: &Case) -> (Outcome, u64) {
    let mut port = Oracle::from_state(&case.start);
    let mut log = vec![0; case.commands.len() * RECORD];
    let run = model::play(&mut port, &case.script, &mut log).expect("no fault");
    assert_eq!(run.records, case.commands.len());
    let outcome = Outcome {
        state: port.state(),
        log,
    };
    (outcome, run.length)
}

/// Where a side ends, with the length where it has one.
fn ended(kind: Kind, case: &Case) -> Option<(Outcome, Option<u64>)> {
    let mut side = side(kind, case)?;
    // Twice, so that a reset is seen to bring everything back.
    for _ in 0..2 {
        side.reset();
        side.run();
    }
    let outcome = side.outcome().expect("a run of a benchmark is accepted");
    Some((outcome, side.length()))
}

#[test]
fn players_end_as_the_oracle_does() {
    for plan in &PLANS {
        let case = case(plan);
        let (expected, length) = oracle(&case);
        for kind in PLAYING {
            if let Some((met, counted)) = ended(kind, &case) {
                assert!(met == expected, "{}: {kind:?}", plan.name);
                assert_eq!(counted.unwrap_or(length), length, "{}: {kind:?}", plan.name);
            }
        }
    }
}

#[test]
fn calls_end_as_the_oracle_does() {
    for plan in &PLANS {
        let case = case(plan);
        let (mut expected, _) = oracle(&case);
        expected.log = expected.log.chunks_exact(RECORD).map(|r| r[1]).collect();
        for kind in CALLING {
            if let Some((met, _)) = ended(kind, &case) {
                assert!(met == expected, "{}: {kind:?}", plan.name);
            }
        }
    }
}

#[test]
fn words_are_sent_and_received_back_to_back() {
    for plan in PLANS.iter().filter(|plan| plan.unit == Unit::Word) {
        let case = case(plan);
        let (before, after) = (case.start, oracle(&case).0.state);
        let sent = after.transmitted - before.transmitted;
        let received = after.received - before.received;
        let words = case.units as u64;
        let expected = match plan.name {
            "clocked from outside, both ways" => (words, words),
            name if name.contains("sending") => (words, 0),
            _ => (0, words),
        };
        assert_eq!((sent, received), expected, "{}", plan.name);
        assert_eq!(after.ssr & 0x78, 0, "{}: a flag is left", plan.name);
    }
}

#[test]
fn scripts_are_as_long_as_they_may_be() {
    for plan in &PLANS {
        let case = plan.case();
        assert!(case.script.len() <= 16_384, "{}", plan.name);
        assert!(case.commands.len() <= 8_192, "{}", plan.name);
        assert!(case.units > 200, "{}: {}", plan.name, case.units);
    }
    assert_eq!(longest().len(), 2 + 4095 * 4);
}
