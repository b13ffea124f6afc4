//! The fuzzer without libFuzzer: its inputs, its seeds, and that it finds.
use differential::{
    OraclePort,
    compare::Start,
    fuzz::{
        input::{Input, LONGEST, SHORT, bounded},
        mutate::mutated,
        play::{Fuzz, Side, WRONG, wrong},
        seeds,
    },
    layout::{LENGTH, encode},
    scripts::{calls::CallsPlayer, make, player::first_words},
};
use model::{bytes, sample::Random};

/// The oracle under its second player: no difference but one of the fuzzer's
/// own.
fn right() -> Side {
    Side {
        player: |_| Box::new(CallsPlayer::new(OraclePort::default())),
        port: |_| Box::new(OraclePort::default()),
        number: 0,
    }
}

#[test]
fn an_input_reads_as_it_is_written() {
    let r = &mut Random::new(1);
    let mut input = Input::default();
    for _ in 0..20_000 {
        input = mutated(input, r);
        input.script.truncate(100);
        assert_eq!(Input::read(&input.write()), input);
    }
}

#[test]
fn each_part_of_an_input_is_where_it_is_said() {
    let read = |text: &str| Input::read(&bytes(text));
    let plain = Input::default();
    assert_eq!(Input::read(&[]), plain);
    let script = bytes("06 03");
    assert_eq!(read("00 06 03").script, script);
    let all = read("7F 02 06 03 34 12 02 05 AB F3 08 07 06 05 04 03 02 01 0A 00 07");
    let expected = Input {
        earlier: Some(script),
        distance: Some(0x1234),
        numbers: vec![(5, 0xab), (51, 0x0102_0304_0506_0708)],
        log: Some(10),
        turned: true,
        calls: true,
        long: true,
        script: vec![7],
    };
    assert_eq!(all, expected);
    // A place behind the array makes it longer.
    let longer = read("04 01 3F 01").array(&[0; LENGTH]);
    assert_eq!((longer.len(), longer[63]), (64, 1));
}

#[test]
fn waits_are_bounded() {
    // 0x5DC is SHORT, 0x11170 is LONGEST.
    assert_eq!((SHORT, LONGEST), (1500, 70_000));
    let script = bytes("03 DC 0B 03 01 07");
    assert_eq!(bounded(&script, false), &script[..3]);
    assert_eq!(bounded(&script, true), &script);
    // 0xBB7 is one less than twice SHORT, so the next counts as one half.
    let script = bytes("08 B7 17 09 02 08 03");
    assert_eq!(bounded(&script, false), &script[..5]);
    let script = bytes("03 FF FF 03 03 F1 22 03 01");
    assert_eq!(bounded(&script, true), &script[..7]);
    assert_eq!(bounded(&script, false), &[]);
}

#[test]
fn a_case_becomes_the_input_that_plays_it() {
    for seed in 0..500 {
        let (_, case) = make::case(seed, None);
        let input = Input::read(&seeds::of(&case).write());
        assert_eq!(input.script, case.script);
        assert_eq!(input.log_length(), case.log);
        let words = match &case.start {
            Start::Fresh => first_words(&Start::Fresh),
            Start::Given(state) => encode(state),
        };
        assert_eq!(input.array(&first_words(&Start::Fresh)), words);
    }
}

#[test]
fn the_right_side_shows_no_difference() {
    let mut fuzz = Fuzz::new(right());
    let r = &mut Random::new(7);
    let mut played = 0;
    for seed in seeds::all().iter().step_by(7) {
        let mut input = Input::read(seed);
        for _ in 0..4 {
            if let Err(report) = fuzz.play(&input, &mut |_| played += 1) {
                panic!("{report}\n{input:?}");
            }
            input = mutated(input, r);
        }
    }
    assert!(played > 2000, "{played}");
}

/// What an earlier script left is where the next begins.
#[test]
fn an_earlier_script_is_played_first() {
    let input = Input {
        earlier: Some(bytes("06 03 03 20")),
        script: bytes("03 10"),
        ..Input::default()
    };
    let mut halves = Vec::new();
    Fuzz::new(right())
        .play(&input, &mut |same| halves.push(same.state.half))
        .expect("no difference");
    assert_eq!(halves, [32, 48]);
}

/// The seeds alone find most wrong sides; the rest is the fuzzer's to find, or
/// needs a script longer than a seed, or a call behind the commands. The last
/// seeds, which begin at given states, come first: they find most at once.
#[test]
fn seeds_find_wrong_sides() {
    let seeds = seeds::all();
    let mut missed = Vec::new();
    for number in 1..=WRONG {
        let (side, name) = wrong(number).expect("a number of a wrong side");
        let mut fuzz = Fuzz::new(side);
        if !seeds
            .iter()
            .rev()
            .any(|seed| fuzz.differs(&Input::read(seed)))
        {
            missed.push(name);
        }
    }
    assert!(missed.len() <= 10, "of {WRONG}: {missed:?}");
    assert!(wrong(0).is_none() && wrong(WRONG + 1).is_none());
}

/// The wrong side of this name.
fn named(name: &str) -> Side {
    let mut all = (1..=WRONG).filter_map(wrong);
    all.find(|(_, n)| *n == name).expect("it is one").0
}

/// Operands above their ranges come to the direct calls.
#[test]
fn bytes_behind_the_commands_are_one_more_call() {
    let before = |text: &str| Input {
        calls: true,
        script: bytes(text),
        ..Input::default()
    };
    let mut fuzz = Fuzz::new(named("refusal: 1 before 2"));
    assert!(!fuzz.differs(&before("06 03 02 00 00 00 00 00 01 00")));
    assert!(fuzz.differs(&before("06 03 02 80 80 00 00 00 01 00 00")));
}

/// So does a kind that is none of the nine, also on a state that fails the
/// field test: here SCR has bit 3.
#[test]
fn an_unknown_kind_is_one_more_call() {
    let on = |scr| Input {
        calls: true,
        numbers: vec![(3, scr)],
        script: bytes("0A 00 00 00 00 00 00 00 00"),
        ..Input::default()
    };
    let mut fuzz = Fuzz::new(named("refusal: 7 before 8"));
    assert!(!fuzz.differs(&on(0x30)));
    assert!(fuzz.differs(&on(0x38)));
    assert!(!Fuzz::new(right()).differs(&on(0x38)));
}

#[test]
fn a_difference_is_told_in_words() {
    let (side, _) = wrong(30).expect("kind 0 taken as 7");
    let input = Input {
        script: bytes("06 03 00"),
        ..Input::default()
    };
    let report = Fuzz::new(side)
        .play(&input, &mut |_| {})
        .expect_err("kind 0 is refused");
    assert!(report.starts_with("DIFFERENCE number: reference 7, player 0"));
    assert!(report.contains("script of 1 bytes: 00"), "{report}");
}
