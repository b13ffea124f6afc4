//! The proved player beside the oracle, in short; `scripts` does it at length.
#![cfg(feature = "player")]
use differential::{
    compare::Start,
    fuzz::{
        input::Input,
        mutate::mutated,
        play::{Fuzz, proved as proved_side},
        seeds,
    },
    scripts::{
        list,
        player::{Player, first_words},
        proved::{ProvedPlayer, arrays},
        run::{Part, gate, report, run},
    },
};
use model::sample::Random;

fn proved() -> Box<dyn Player> {
    Box::new(ProvedPlayer)
}

#[test]
fn sides_agree() {
    for walk in gate(30_000, 1) {
        let thin = match walk.part {
            Part::Three => walk.every(101),
            _ => walk,
        };
        if let Some(found) = run(&proved, &thin, None, 2).found {
            panic!("{}", report(&proved, &found));
        }
    }
}

#[test]
fn arrays_that_are_no_state_are_refused() {
    let (tried, wrong) = arrays(1);
    assert!(tried > 0);
    assert!(wrong.is_empty(), "{wrong:?}");
}

#[test]
fn replay_list() {
    let items = list::items();
    let mut text = String::new();
    for item in &items {
        let mut log = list::blank(item);
        let mut words = first_words(&Start::Fresh);
        let played = ProvedPlayer
            .play(&mut words, &item.script, &mut log)
            .expect("no fault");
        text.push_str(&list::lines(&played, &log, &words));
    }
    text.push_str(&format!("{} cases\n", items.len()));
    assert!(text == list::printout(&items, &[]).expect("no fault"));
}

#[test]
fn the_fuzzers_seeds() {
    let mut fuzz = Fuzz::new(proved_side());
    let r = &mut Random::new(1);
    for seed in seeds::all() {
        let mut input = Input::read(&seed);
        for _ in 0..4 {
            if let Err(report) = fuzz.play(&input, &mut |_| {}) {
                panic!("{report}\n{input:?}");
            }
            input = mutated(input, r);
        }
    }
}
