//! A smaller script that still shows a difference.
use super::{
    compare::{Difference, Table},
    player::Case,
};
use crate::{
    compare::Start,
    shrink::{plainer, without},
};
use model::RECORD;

/// Plays at most, and script bytes played at most: an end for any script.
const PLAYS: u32 = 20_000;
const BYTES: usize = 4_000_000;

struct Search<'a> {
    table: &'a mut Table,
    plays: u32,
    bytes: usize,
    best: Case,
    difference: Difference,
}

impl Search<'_> {
    /// Take the case if it shows a difference too.
    fn take(&mut self, case: Case) -> bool {
        if self.plays == 0 || self.bytes < case.script.len() {
            return false;
        }
        self.plays -= 1;
        self.bytes -= case.script.len();
        let Err(difference) = self.table.play(&case, &mut |_| {}) else {
            return false;
        };
        self.best = case;
        self.difference = *difference;
        true
    }

    fn without(&mut self) -> bool {
        without(self.best.script.clone(), |script| {
            let case = Case {
                script,
                ..self.best.clone()
            };
            self.take(case).then(|| self.best.script.clone())
        })
    }

    /// A shorter log, to the end of a record or less.
    fn log(&mut self) -> bool {
        let mut smaller = false;
        loop {
            let log = self.best.log;
            let tries = [
                0,
                self.best.script.len() * RECORD,
                log / 2,
                log.saturating_sub(RECORD),
                log.saturating_sub(1),
            ];
            let found = tries.into_iter().filter(|less| *less < log).any(|log| {
                let case = Case {
                    log,
                    ..self.best.clone()
                };
                self.take(case)
            });
            if !found {
                return smaller;
            }
            smaller = true;
        }
    }

    /// Bytes made small, and waits short.
    fn bytes(&mut self) -> bool {
        let mut smaller = false;
        for at in 0..self.best.script.len() {
            let byte = self.best.script[at];
            let tries = [
                0,
                1,
                7,
                byte & 0x80,
                byte & 0x81,
                byte / 2,
                byte.saturating_sub(1),
            ];
            for less in tries.into_iter().filter(|less| *less < byte) {
                let mut case = self.best.clone();
                case.script[at] = less;
                if self.take(case) {
                    smaller = true;
                    break;
                }
            }
        }
        smaller
    }

    /// A given state more like a fresh port's.
    fn start(&mut self) -> bool {
        let fresh = Case {
            start: Start::Fresh,
            ..self.best.clone()
        };
        if self.best.start == Start::Fresh {
            return false;
        }
        let mut smaller = self.take(fresh);
        let mut which = 0;
        while let Start::Given(state) = &self.best.start {
            let Some(plain) = plainer(state, &mut which) else {
                break;
            };
            let case = Case {
                start: Start::Given(plain),
                ..self.best.clone()
            };
            smaller |= self.take(case);
        }
        smaller
    }
}

/// The smallest case found, and its difference.
pub fn shrink(table: &mut Table, case: &Case, difference: Difference) -> (Case, Difference) {
    let mut search = Search {
        table,
        plays: PLAYS,
        bytes: BYTES,
        best: case.clone(),
        difference,
    };
    while search.without() | search.log() | search.start() | search.bytes() {}
    (search.best, search.difference)
}
