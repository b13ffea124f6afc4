//! Where the reference driven by its own `deadline` and `advance` ends
//! otherwise than stepped half by half, or cycle by cycle on the counters.
//! There is one such place: a clocked
//! word that ends while SMR is start-stop and the line is at space. The edge
//! that ends it comes after the half's arming, so the next word is armed by
//! the next step of any kind; stepped that is the next half, driven by events
//! it is the next event. Benchmarks must not go there.
use benchmarks::port::{Counted, Driven, Pace, Reference};
use differential::lists;
use model::{Command, Oracle, State, bytes, commands, refusal};
use reference::Sci;

fn begun<S: Driven>(pace: Pace) -> Reference<S> {
    Reference::at(&Oracle::fresh().state(), pace)
}

/// A clocked word is in the receiver, and SMR is start-stop.
fn clocked_rest(s: &State) -> bool {
    s.smr & 0x80 == 0 && s.rx.is_some_and(|rx| rx.format.synchronous)
}

/// The first call after which the two are not the same: the state before it.
fn first_difference<S: Driven>(list: &[Command]) -> Option<(Command, State)> {
    let (mut events, mut halves) = (begun::<S>(Pace::Events), begun::<S>(Pace::Steps));
    for c in list {
        let before = halves.state().expect("a state of document 01");
        if refusal(&before, c.kind, c.a, c.b).is_some() {
            continue;
        }
        let answers = (events.call(*c), halves.call(*c));
        let states = (events.state(), halves.state());
        if answers.0 != answers.1 || states.0 != states.1 {
            return Some((*c, before));
        }
    }
    None
}

#[test]
fn only_after_the_rest_of_a_clocked_word() {
    let mut met = [0; 2];
    for seed in 0..6000 {
        let (_, list) = lists::list(seed);
        let has = |kinds: &[u32]| list.iter().any(|c| kinds.contains(&c.kind));
        let (place, difference) = match (has(&[3]), has(&[8, 9])) {
            (_, false) => (0, first_difference::<Sci>(&list)),
            (false, true) => (1, first_difference::<Counted>(&list)),
            // No clocks have both.
            (true, true) => continue,
        };
        if let Some((c, before)) = difference {
            met[place] += 1;
            assert!(
                matches!(c.kind, 3 | 8 | 9) && clocked_rest(&before),
                "seed {seed}: {c:?}, {before:?}"
            );
        }
    }
    assert!(met.iter().all(|met| *met > 0), "not met: {met:?}");
}

/// The smallest script that meets it.
#[test]
fn smallest() {
    let script = bytes("06 03 02 98 FF 03 80 01 02 9A FF 03 10 04 00 03 1E 02 98 FF 03 00 03 12");
    let armed = |pace| {
        let mut port = begun::<Sci>(pace);
        for c in commands(&script).0 {
            port.call(c).expect("no error");
        }
        let rx = port.state().expect("a state of document 01").rx;
        rx.map(|rx| (rx.position, rx.next))
    };
    // The clocked word ends at half 32; the wait ends at half 48.
    assert_eq!(armed(Pace::Steps), Some((-1, Some(50))));
    assert_eq!(armed(Pace::Events), Some((-2, Some(49))));
}
