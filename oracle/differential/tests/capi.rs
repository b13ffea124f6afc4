//! The proved port beside the oracle, in short; the runner does it at length.
#![cfg(feature = "capi")]
use differential::{
    OraclePort,
    capi::{CapiPort, arrays},
    document,
    run::{Plan, Sides, report, run},
    scripts::{self, calls::CallsPlayer, player::Player, run::Part},
    words,
};

#[test]
fn document_holds() {
    for part in document::all(&mut CapiPort::default()) {
        assert_eq!(part.met, part.expected, "{}", part.case);
    }
}

#[test]
fn arrays_that_are_no_state_are_refused() {
    let (tried, wrong) = arrays();
    assert!(tried > 0);
    assert!(wrong.is_empty(), "{wrong:?}");
}

#[test]
fn every_word_is_the_references() {
    let outcome = words::all(&mut CapiPort::default());
    assert!(outcome.good(), "{}, {:?}", outcome.compared, outcome.wrong);
}

#[test]
fn sides_agree() {
    let mut sides = Sides {
        reference: Box::new(OraclePort::default()),
        port: Box::new(CapiPort::default()),
    };
    let plan = Plan {
        family: None,
        seed: 1,
        calls: 1_000_000,
        time: None,
    };
    if let Some(found) = run(&mut sides, &plan, None).found {
        panic!("{}", report(&mut sides, &found, None));
    }
}

/// Scripts over the proved direct calls, which tries them in the order of a
/// script and the two small calls after each.
#[test]
fn scripts_over_calls_agree() {
    let make = || -> Box<dyn Player> { Box::new(CallsPlayer::new(CapiPort::default())) };
    for walk in scripts::run::gate(10_000, 1) {
        let thin = match walk.part {
            Part::Three => walk.every(1009),
            _ => walk.every(walk.step * 3),
        };
        if let Some(found) = scripts::run::run(&make, &thin, None, 2).found {
            panic!("{}", scripts::run::report(&make, &found));
        }
    }
}
