//! A smaller list that still shows a difference.
use crate::{
    alter::Alteration,
    compare::{Case, Difference, Start, begin, play},
    port::{OraclePort, Port},
    run::Sides,
    states::moved,
};
use model::{Command, State, field_test};

/// Plays at most; enough for any list here, and an end for the rest.
const PLAYS: u32 = 20_000;

struct Search<'a> {
    sides: &'a mut Sides,
    alteration: Option<&'a Alteration>,
    plays: u32,
    best: Case,
    difference: Difference,
}

impl Search<'_> {
    /// Take the case if it shows a difference too.
    fn take(&mut self, case: Case) -> bool {
        if self.plays == 0 {
            return false;
        }
        self.plays -= 1;
        let (reference, port) = self.sides.both();
        let Err(difference) = play(reference, port, &case, self.alteration, &mut |_| {}) else {
            return false;
        };
        self.best = case;
        if let Some(call) = difference.call {
            self.best.calls.truncate(call + 1);
        }
        self.difference = difference;
        true
    }

    fn without(&mut self) -> bool {
        without(self.best.calls.clone(), |calls| {
            let start = self.best.start.clone();
            self.take(Case { start, calls })
                .then(|| self.best.calls.clone())
        })
    }

    fn operands(&mut self) -> bool {
        let mut smaller = false;
        let mut at = 0;
        while at < self.best.calls.len() {
            let c = self.best.calls[at];
            let (low, high) = (c.a.saturating_sub(1), c.a / 2);
            let bits = (0..8).map(|bit| Command {
                b: c.b & !(1 << bit),
                ..c
            });
            let tries = [0, 1, 2, 16, 32, high, low]
                .into_iter()
                // An address is not made smaller.
                .filter(|a| c.kind > 2 && *a < c.a)
                .map(|a| Command { a, ..c })
                .chain([Command { b: 0, ..c }])
                .chain(bits)
                .filter(|other| *other != c);
            let found = tries.into_iter().any(|other| {
                let mut case = self.best.clone();
                case.calls[at] = other;
                self.take(case)
            });
            if found {
                smaller = true;
            } else {
                at += 1;
            }
        }
        smaller
    }

    /// Fields of a given state one by one as in a fresh port. A state that
    /// passes the field test stays one that passes it, and the reverse.
    fn start(&mut self) -> bool {
        let Start::Given(given) = self.best.start.clone() else {
            return false;
        };
        let mut smaller = false;
        let mut which = 0;
        let mut state = given;
        while let Some(plain) = plainer(&state, &mut which) {
            let case = Case {
                start: Start::Given(plain),
                calls: self.best.calls.clone(),
            };
            if self.take(case) {
                smaller = true;
                state = plain;
            }
        }
        smaller
    }
}

/// A list without runs of its items, long ones first; whether any could go.
/// `take` is given a shorter list and hands back what it keeps of it, if it
/// takes it.
pub fn without<T: Clone>(mut best: Vec<T>, mut take: impl FnMut(Vec<T>) -> Option<Vec<T>>) -> bool {
    let mut smaller = false;
    let mut size = best.len();
    while size > 0 {
        let mut at = 0;
        while at < best.len() {
            let mut less = best.clone();
            less.drain(at..(at + size).min(best.len()));
            if let Some(kept) = take(less) {
                best = kept;
                smaller = true;
            } else {
                at += size;
            }
        }
        size /= 2;
    }
    smaller
}

/// The state with one more field as in a fresh port, the first from `which`
/// on that changes it. What passes the field test goes on passing it, and the
/// reverse.
pub fn plainer(state: &State, which: &mut usize) -> Option<State> {
    let fresh = fresh();
    let passes = field_test(state).is_ok();
    while let Some(plain) = PLAIN.get(*which) {
        *which += 1;
        let mut other = *state;
        plain(&mut other, &fresh);
        if other != *state && field_test(&other).is_ok() == passes {
            return Some(other);
        }
    }
    None
}

fn fresh() -> State {
    let mut port = OraclePort::default();
    port.fresh();
    port.state().expect("a fresh port has a state")
}

type Plain = fn(&mut State, &State);

const PLAIN: [Plain; 26] = [
    |s, f| *s = *f,
    // The half count low, at the same place in a cell.
    |s, _| *s = moved(s, s.half % 32),
    |s, _| *s = moved(s, s.half.min(32 + s.half % 32)),
    |s, f| s.tx = f.tx,
    |s, f| s.rx = f.rx,
    |s, f| s.holding = f.holding,
    |s, f| s.sync_next = f.sync_next,
    |s, f| (s.transmitted, s.received) = (f.transmitted, f.received),
    |s, f| s.bit_start = f.bit_start,
    |s, f| s.spcr = f.spcr,
    |s, f| s.smr = f.smr,
    |s, f| s.brr = f.brr,
    |s, f| s.scr = f.scr,
    |s, _| s.scr &= 0x3f,
    |s, f| s.tdr = f.tdr,
    |s, f| s.ssr = f.ssr,
    |s, f| s.rdr = f.rdr,
    |s, f| s.semr = f.semr,
    |s, f| s.ircr = f.ircr,
    |s, f| s.seen = f.seen,
    |s, f| s.sub = f.sub,
    |s, f| s.reset_mode = f.reset_mode,
    |s, f| s.uart = f.uart,
    |s, f| (s.input, s.input_clock) = (f.input, f.input_clock),
    |s, f| (s.high, s.sck) = (f.high, f.sck),
    |s, f| s.edge = f.edge,
];

/// The smallest case found, and its difference.
pub fn shrink(
    sides: &mut Sides,
    alteration: Option<&Alteration>,
    case: &Case,
    difference: Difference,
) -> (Case, Difference) {
    let mut search = Search {
        sides,
        alteration,
        plays: PLAYS,
        best: case.clone(),
        difference,
    };
    search.take(case.clone());
    while search.without() | search.start() | search.operands() {}
    (search.best, search.difference)
}

/// The last call alone, on the reference's state before it, if that shows a
/// difference too.
pub fn last_call(
    sides: &mut Sides,
    alteration: Option<&Alteration>,
    case: &Case,
) -> Option<(Case, Difference)> {
    let (last, before) = case.calls.split_last()?;
    if before.is_empty() && case.start != Start::Fresh {
        return None;
    }
    let (reference, port) = sides.both();
    begin(reference, &case.start);
    for call in before {
        reference.call(*call).ok()?;
    }
    let single = Case {
        start: Start::Given(reference.state().ok()?),
        calls: vec![*last],
    };
    let difference = play(reference, port, &single, alteration, &mut |_| {}).err()?;
    let (case, difference) = shrink(sides, alteration, &single, difference);
    Some((case, difference))
}
