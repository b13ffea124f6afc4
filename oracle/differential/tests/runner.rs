//! The runner tried on itself: the oracle on both sides, and each alteration
//! put on one. What needs the proved port is in tests/capi.rs.
use differential::{
    OraclePort,
    alter::ALTERATIONS,
    compare::{Case, Start, play},
    document,
    layout::{Words, decode, encode, no_states, within},
    lists,
    run::{Family, Plan, Sides, report, run, self_test},
    states,
};
use model::{
    Command, State, failed_clauses, field_test,
    registers::{SCR, SMR, SSR},
    sample::{self, Random},
};

fn sides() -> Sides {
    Sides {
        reference: Box::new(OraclePort::default()),
        port: Box::new(OraclePort::default()),
    }
}

fn plan(family: Option<Family>, calls: u64) -> Plan {
    Plan {
        family,
        seed: 1,
        calls,
        time: None,
    }
}

#[test]
fn document_holds() {
    for part in document::all(&mut OraclePort::default()) {
        assert_eq!(part.met, part.expected, "{}", part.case);
    }
}

#[test]
fn oracle_agrees_with_itself_and_all_is_reached() {
    let outcome = run(&mut sides(), &plan(None, 4_000_000), None);
    assert!(outcome.found.is_none());
    let (_, zero) = outcome.coverage.missing();
    assert!(zero.is_empty(), "{zero:?}");
}

#[test]
fn every_alteration_is_reported() {
    for tried in self_test(&mut sides(), 1, 500_000) {
        assert!(tried.found.is_some(), "{}", tried.name);
    }
}

/// A run is the same again, to the text of its report, and the seed that the
/// report prints gives the same difference as its first list.
#[test]
fn runs_are_the_same_again() {
    for alteration in ALTERATIONS.iter().step_by(5) {
        let once = || {
            let mut sides = sides();
            let outcome = run(&mut sides, &plan(None, 500_000), Some(alteration));
            let found = outcome.found.expect(alteration.name);
            (report(&mut sides, &found, Some(alteration)), found)
        };
        let (text, found) = once();
        assert_eq!(text, once().0);
        let again = Plan {
            family: Some(found.family),
            seed: found.seed,
            calls: 1,
            time: None,
        };
        let outcome = run(&mut sides(), &again, Some(alteration));
        let again = outcome.found.expect("the same difference");
        assert_eq!(again.difference.to_string(), found.difference.to_string());
        assert_eq!(outcome.lists, 1);
    }
}

#[test]
fn lists_are_those_of_their_seeds() {
    for seed in 0..200 {
        assert_eq!(lists::list(seed), lists::list(seed));
        assert_ne!(lists::list(seed).1, lists::list(seed + 1).1);
    }
}

#[test]
fn given_states_pass_and_failing_ones_fail_once() {
    for seed in 0..5000 {
        let Start::Given(state) = states::given(seed).start else {
            panic!("no state");
        };
        assert_eq!(field_test(&state), Ok(()));
        let (_, case) = states::failing(seed);
        let Start::Given(state) = case.start else {
            panic!("no state");
        };
        assert_eq!(failed_clauses(&state).count(), 1);
    }
}

#[test]
fn layout_is_there_and_back() {
    for seed in 0..20_000 {
        let state = sample::state(&mut Random::new(seed));
        assert_eq!(decode(&encode(&state)), Ok(state));
        let (_, case) = states::failing(seed);
        let Start::Given(state) = case.start else {
            panic!("no state");
        };
        assert_eq!(decode(&encode(&state)), Ok(state));
    }
}

#[test]
fn arrays_that_are_no_state() {
    let mut words = encode(&fresh());
    assert_eq!(within(&words), Some(words));
    let all = no_states(&words);
    // 67 lengths; the tallies and totals have no number above their greatest.
    assert_eq!(all.len(), 67 + 3 * 52);
    for (what, array) in all {
        assert!(within(&array).is_none(), "{what}");
        if let Ok(words) = Words::try_from(array) {
            assert!(decode(&words).is_err(), "{what}");
        }
    }
    // A held byte where nothing is held.
    words[18] = 1;
    assert!(decode(&words).is_err());
}

fn fresh() -> State {
    use differential::Port;
    let mut port = OraclePort::default();
    port.fresh();
    port.state().expect("a fresh port has a state")
}

/// The one free part: the clock drive from the end of clocked output until
/// time passes, and nothing else.
#[test]
fn clock_drive_is_free_only_after_clocked_output() {
    let altered = ALTERATIONS
        .iter()
        .find(|a| a.name.starts_with("clock drive: start-stop"))
        .expect("an alteration of the clock drive");
    let call = |kind, a, b| Command { kind, a, b };
    let mut calls = vec![
        call(6, 3, 0),
        call(2, SMR, 0x80),
        call(2, SCR, 0x30),
        // Clocked output ends here; the next two leave the drive free.
        call(2, SMR, 0x00),
        call(1, SSR, 0),
        call(2, SCR, 0x01),
    ];
    let mut free = Vec::new();
    let mut sides = sides();
    let mut result = |calls: &[Command], free: &mut Vec<bool>| {
        let case = Case {
            start: Start::Fresh,
            calls: calls.to_vec(),
        };
        let (reference, port) = sides.both();
        play(reference, port, &case, Some(altered), &mut |step| {
            free.push(step.free)
        })
    };
    assert!(result(&calls, &mut free).is_ok());
    assert_eq!(free, [false, false, false, true, true, true]);
    calls.push(call(7, 0, 0));
    let difference = result(&calls, &mut free).expect_err("time has passed");
    assert_eq!(
        (difference.call, difference.field.as_str()),
        (Some(6), "clock drive")
    );
}
