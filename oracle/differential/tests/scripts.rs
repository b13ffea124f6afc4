//! The script runner tried on itself: a player over the oracle's calls, right
//! and wrong. What needs the proved player is in tests/player.rs.
use differential::{
    OraclePort,
    compare::Start,
    scripts::{
        calls::{CallsPlayer, Wrong},
        compare::Table,
        coverage::Coverage,
        list::{self, fnv},
        make,
        player::{Played, Player, first_words},
        run::{Ground, Part, Walk, gate, report, run, self_test, trial},
        writes::{self, FITS, Write},
    },
};
use model::{LOG, RECORD, SCRIPT, bytes};
use std::collections::HashSet;

const SEED: u64 = 1;

fn right() -> Box<dyn Player> {
    Box::new(CallsPlayer::new(OraclePort::default()))
}

/// The gate's walks, the longest thinned: both players agree, and all that
/// coverage asks is reached.
#[test]
fn players_agree_and_all_is_reached() {
    let mut coverage = Coverage::default();
    for walk in gate(60_000, SEED) {
        let thin = match walk.part {
            Part::Three => walk.every(31),
            Part::Cycles => walk.every(5),
            _ => walk,
        };
        let outcome = run(&right, &thin, None, 2);
        if let Some(found) = outcome.found {
            panic!("{}", report(&right, &found));
        }
        coverage.add(&outcome.coverage);
    }
    let (_, zero) = coverage.missing();
    assert!(zero.is_empty(), "{zero:?}");
}

#[test]
fn every_wrong_player_is_reported() {
    let tried = self_test(&trial(100_000, SEED), 2);
    assert_eq!(tried.len(), Wrong::ALL.len());
    for one in tried {
        assert!(one.found.is_some(), "{}", one.wrong.text());
    }
}

/// A run is the same again with any number of threads, to the text of its
/// report, and the number that the report prints gives the same difference.
#[test]
fn runs_are_the_same_again() {
    for wrong in Wrong::ALL.iter().step_by(8) {
        let make =
            || -> Box<dyn Player> { Box::new(CallsPlayer::wrong(OraclePort::default(), *wrong)) };
        let walks = trial(100_000, SEED);
        let once = |threads| {
            let found = walks
                .iter()
                .find_map(|walk| run(&make, walk, None, threads).found)
                .unwrap_or_else(|| panic!("{}", wrong.text()));
            (report(&make, &found), found)
        };
        let (text, found) = once(1);
        assert_eq!(text, once(3).0);
        let alone = Walk::whole(found.part).from(found.number, 1);
        let again = run(&make, &alone, None, 1)
            .found
            .unwrap_or_else(|| panic!("{}", wrong.text()));
        assert_eq!(again.difference.to_string(), found.difference.to_string());
    }
}

/// The first numbers are all scripts of at most two bytes, and the next all
/// of three.
#[test]
fn short_scripts_are_all() {
    let ground = Ground::default();
    let walk = Walk::whole(Part::Two);
    let mut met = HashSet::new();
    for number in walk.first..walk.end {
        let case = ground.case(Part::Two, number).1;
        assert!(case.script.len() <= 2);
        met.insert((case.script, case.log));
    }
    assert_eq!(met.len() as u64, walk.end);
    let walk = Walk::whole(Part::Three);
    assert_eq!(walk.end, 1 << 24);
    for number in (walk.first..walk.end).step_by(65_521) {
        let script = ground.case(Part::Three, number).1.script;
        let value = script.iter().rev().fold(0, |v, b| v << 8 | u64::from(*b));
        assert_eq!((script.len(), value), (3, number));
    }
}

/// As many scripts of cycles as there are lists of at most five commands.
#[test]
fn orders_of_cycles_are_all() {
    let ground = Ground::default();
    let walk = Walk::whole(Part::Cycles);
    assert_eq!(walk.end, (14_u64.pow(6) - 1) / 13);
    let all: HashSet<_> = (walk.first..walk.end)
        .map(|number| ground.case(Part::Cycles, number).1.script)
        .collect();
    assert_eq!(all.len() as u64, walk.end);
    let script = "06 03 02 99 FF 03 01 08 01 02 98 FF 03 03 02 9A FF 03 20 08 3F 06 00";
    assert!(all.contains(&bytes(script)));
}

/// As many scripts of resets as there are lists of at most six commands.
#[test]
fn resets_are_all() {
    let ground = Ground::default();
    let walk = Walk::whole(Part::Resets);
    assert_eq!(walk.end, (9_u64.pow(7) - 1) / 8);
    let all: HashSet<_> = (walk.first..walk.end)
        .map(|number| ground.case(Part::Resets, number).1.script)
        .collect();
    assert_eq!(all.len() as u64, walk.end);
    for script in ["06 03 03 05 06 00 06 03 03 05", LENGTH_OF_PINS] {
        assert!(all.contains(&bytes(script)), "{script}");
    }
}

/// Every log length with as many commands as fit and with one more; every
/// script length just so.
#[test]
fn lengths_are_all() {
    let ground = Ground::default();
    let walk = Walk::whole(Part::Logs);
    let mut logs = HashSet::new();
    for number in walk.first..walk.end {
        logs.insert(ground.case(Part::Logs, number).1.log);
    }
    assert_eq!(logs.len(), LOG + 1);
    let walk = Walk::whole(Part::Lengths);
    assert_eq!(walk.end, 2 * (SCRIPT as u64 + 1));
    for number in (walk.first..walk.end).step_by(331) {
        let case = ground.case(Part::Lengths, number).1;
        assert_eq!(case.script.len(), number as usize / 2);
    }
}

#[test]
fn cases_are_those_of_their_seeds() {
    for seed in 0..300 {
        let (left, right) = (make::case(seed, None), make::case(seed, None));
        assert_eq!(left.0, right.0);
        assert_eq!((left.1.script, left.1.log), (right.1.script, right.1.log));
        assert_eq!(left.1.start, right.1.start);
    }
}

/// Two edges of the clock pin, and a reset.
const LENGTH_OF_PINS: &str = "06 03 02 9A FF 03 02 05 00 01 05 01 01 06 00";

/// Document 01's examples through the player that stands in for the proved
/// one: number, offset and log bytes.
#[test]
fn examples() {
    let cases = [
        ("", 0, 0, 0, 0, 0),
        ("01 A5 FF 03", LOG, 1, 0, 0, 0),
        ("03 80 80 04", LOG, 2, 0, 0, 0),
        ("02 A7 FF 03 80 01", LOG, 3, 0, 0, 0),
        ("03", LOG, 5, 0, 0, 0),
        ("80 00", LOG, 6, 0, 0, 0),
        ("0A", LOG, 7, 0, 0, 0),
        ("07", 5, 9, 0, 0, 0),
        ("07", 6, 0, 0, 6, 0),
        ("07 07", 11, 9, 1, 6, 0),
        ("03 FF FF 03", LOG, 0, 0, 6, 0),
        // Document 02, One: the length across resets, on the clock pin, and
        // before a refusal.
        ("06 03 03 05 06 00 06 03 03 07", LOG, 0, 0, 30, 12),
        ("06 03 03 05 06 0B", LOG, 0, 0, 18, 5),
        (LENGTH_OF_PINS, LOG, 0, 0, 30, 2),
        ("06 03 03 05 06 00 0A", LOG, 7, 6, 18, 5),
        // Two: cycles, and a length that counts their halves.
        ("08 80 80 04", LOG, 2, 0, 0, 0),
        ("08", LOG, 5, 0, 0, 0),
        ("06 03 08 80 02 03 01 06 00", LOG, 0, 0, 24, 2),
        ("06 03 02 99 FF 03 00 08 FF FF 03", LOG, 0, 0, 18, 65_535),
    ];
    for (script, room, number, offset, written, length) in cases {
        let mut log = vec![0; room];
        let mut words = first_words(&Start::Fresh);
        let met = right().play(&mut words, &bytes(script), &mut log);
        let expected = Played {
            number,
            offset,
            written,
            length,
        };
        assert_eq!(met, Ok(expected), "{script}");
    }
}

/// A player that gives no answer differs.
#[test]
fn faults_are_differences() {
    struct Faulty;
    impl Player for Faulty {
        fn play(&mut self, _: &mut [u64], _: &[u8], _: &mut [u8]) -> Result<Played, String> {
            Err("no answer".into())
        }
    }
    let case = Ground::default().case(Part::Two, 0).1;
    let difference = Table::new(Box::new(Faulty)).play(&case, &mut |_| {});
    assert_eq!(difference.expect_err("a fault").field, "fault");
}

#[test]
fn sums() {
    for (text, sum) in [
        ("", 0x811c_9dc5),
        ("a", 0xe40c_292c),
        ("foobar", 0xbf9c_f968),
    ] {
        assert_eq!(fnv(text.bytes()), sum);
    }
}

/// The list reads back in one pass, another player prints the same, and every
/// refusal that a fresh port can meet is in it.
#[test]
fn replay_list() {
    let (items, writes) = (list::items(), writes::all());
    let (cases, printout) = (
        list::cases(&items, &writes),
        list::printout(&items, &writes).expect("no fault"),
    );
    assert!(cases.len() < list::LIST, "{}", cases.len());
    let mut rest = &cases[..];
    let mut text = String::new();
    let mut player = right();
    for item in &items {
        let (case, behind) = rest.split_at(4 + item.script.len());
        let lengths = [item.log, item.script.len()].map(|n| (n as u16).to_le_bytes());
        assert_eq!(case, [&lengths.concat()[..], &item.script].concat());
        rest = behind;
        assert!(item.log <= LOG && item.script.len() <= SCRIPT);
        let mut log = list::blank(item);
        let mut words = first_words(&Start::Fresh);
        let played = player
            .play(&mut words, &item.script, &mut log)
            .expect("no fault");
        text.push_str(&list::lines(&played, &log, &words));
    }
    assert_eq!(rest.len(), 30 * writes.len());
    assert!(printout.starts_with(&text));
    for number in [1, 2, 3, 5, 6, 7, 9] {
        for place in [" at 0\n", ""] {
            let line = format!("\nrefused {number}{place}");
            assert!(printout.contains(&line), "{line}");
        }
    }
    let records = printout.lines().filter(|line| line.len() == 13);
    assert!(records.count() > 10 * RECORD);
    assert!(printout.contains("1 80 80 0 0 0\nend 352\n"));
}

/// Every finding of docs/DIFFERENCES.md but 3, which no input shows, has its
/// scripts in the list, among them the first of its row or one that begins so.
#[test]
fn findings_are_in_the_list() {
    let items = list::items();
    let stored: HashSet<&[u8]> = items.iter().map(|item| &item.script[..]).collect();
    let mut of: Vec<Vec<Vec<u8>>> = vec![Vec::new(); 21];
    for (number, script) in checks::findings::scripts() {
        let script = bytes(&script);
        assert!(stored.contains(&script[..]), "{number}: {script:x?}");
        of[number.parse::<usize>().expect("a number")].push(script);
    }
    let document = include_str!("../../../docs/DIFFERENCES.md");
    for (number, scripts) in (1..).zip(&of[1..]).filter(|(number, _)| *number != 3) {
        let row = document
            .lines()
            .find(|line| line.starts_with(&format!("| {number} | ")))
            .unwrap_or_else(|| panic!("finding {number} has no row"));
        let input = row.split(" | ").nth(2).expect("an input");
        let first = bytes(input.split('`').nth(1).expect("a script"));
        assert!(scripts.iter().any(|s| s.starts_with(&first)), "{number}");
    }
}

/// What a writer answers and leaves.
type Wrote = (Option<u64>, Vec<u8>);
type Writer = fn(&Write) -> Wrote;

/// The same write with other bytes, where it has any and they fit.
fn with(write: &Write, bytes: Vec<u8>) -> Wrote {
    let (to, mut buffer) = write.written();
    if to.is_none() || write.kind == FITS {
        return (to, buffer);
    }
    let at = write.at as usize;
    buffer[at..].fill(list::FILL);
    for (place, byte) in buffer[at..].iter_mut().zip(&bytes) {
        *place = *byte;
    }
    (Some(write.at + bytes.len() as u64), buffer)
}

const WRONG_WRITERS: [(&str, Writer); 6] = [
    ("high group first", |w| {
        with(w, w.bytes().into_iter().rev().collect())
    }),
    ("not the shortest form", |w| {
        let mut bytes = w.bytes();
        *bytes.last_mut().expect("a byte") |= 0x80;
        bytes.push(0);
        with(w, bytes)
    }),
    ("pins swapped", |w| {
        let (a, b) = if w.kind == 5 { (w.b, w.a) } else { (w.a, w.b) };
        with(w, Write { a, b, ..*w }.bytes())
    }),
    ("an address cut to its range", |w| {
        let a = if w.kind == 1 { w.a.min(0xffff) } else { w.a };
        with(w, Write { a, ..*w }.bytes())
    }),
    ("the buffer touched where it is full", |w| {
        let (to, mut buffer) = w.written();
        if let (None, Some(byte)) = (to, buffer.last_mut()) {
            *byte = 0;
        }
        (to, buffer)
    }),
    ("the sum wraps", |w| {
        let (to, buffer) = w.written();
        let wraps = w.at.checked_add(w.size()).is_none();
        (if wraps { Some(0) } else { to }, buffer)
    }),
];

/// Wrong writers print something else.
#[test]
fn wrong_writers_are_reported() {
    let text = |writer: Writer| -> String {
        let all = writes::all();
        all.iter().map(|w| writes::lines(w, &writer(w))).collect()
    };
    for (name, writer) in WRONG_WRITERS {
        assert_ne!(text(writer), text(Write::written), "{name}");
    }
}
