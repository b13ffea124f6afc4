//! The notes' tables of grown states: what holds in every state grown from a
//! fresh port, how far due halves lie ahead, and what is reached all the same.
mod ahead;
mod laws;
mod met;
mod views;

use ahead::AHEAD;
use laws::LAWS;
use met::MET;
use model::{
    Fault, Oracle, State,
    sample::{self, Random},
};

/// Calls of one list, after its opening.
const CALLS: usize = 400;

/// A row of the first table: states with its premise, and against it.
pub struct Held {
    pub row: &'static str,
    pub premise: u64,
    pub against: u64,
}

/// A row of the second: the notes' least and greatest distance, those met.
pub struct Reach {
    pub row: &'static str,
    pub notes: (u32, u32),
    pub met: (u32, u32),
}

/// A row of the last: whether the notes say it is reached, states met.
pub struct Met {
    pub row: &'static str,
    pub reached: bool,
    pub states: u64,
}

pub struct Tables {
    pub states: u64,
    pub held: Vec<Held>,
    pub reach: Vec<Reach>,
    pub met: Vec<Met>,
}

/// Run lists by seed from 0 on; the seed of the first that faults.
pub fn measure(lists: u64) -> Result<Tables, (u64, Fault)> {
    let mut tables = Tables::empty();
    for seed in 0..lists {
        list(seed, &mut tables).map_err(|fault| (seed, fault))?;
    }
    Ok(tables)
}

/// One list, looked at after each half and each call.
fn list(seed: u64, tables: &mut Tables) -> Result<(), Fault> {
    let r = &mut Random::new(seed);
    let mut port = Oracle::fresh();
    let mut calls = sample::opening(r);
    calls.extend((0..CALLS).map(|_| sample::call(r)));
    for c in calls {
        let (times, a) = if c.kind == 3 && c.a > 0 {
            (c.a, 1)
        } else {
            (1, c.a)
        };
        for _ in 0..times {
            port.try_call(c.kind, a, c.b)?;
            tables.look(&port.try_state()?);
        }
    }
    Ok(())
}

impl Tables {
    fn empty() -> Self {
        Self {
            states: 0,
            held: LAWS
                .iter()
                .map(|(row, _)| Held {
                    row,
                    premise: 0,
                    against: 0,
                })
                .collect(),
            reach: AHEAD
                .iter()
                .map(|(row, notes, _)| Reach {
                    row,
                    notes: *notes,
                    met: (u32::MAX, 0),
                })
                .collect(),
            met: MET
                .iter()
                .map(|(row, reached, _)| Met {
                    row,
                    reached: *reached,
                    states: 0,
                })
                .collect(),
        }
    }
    fn look(&mut self, s: &State) {
        self.states += 1;
        for (row, (_, law)) in self.held.iter_mut().zip(LAWS) {
            if let Some(holds) = law(s) {
                row.premise += 1;
                row.against += u64::from(!holds);
            }
        }
        for (row, (_, _, ahead)) in self.reach.iter_mut().zip(AHEAD) {
            if let Some(due) = ahead(s) {
                let distance = due - s.half;
                row.met = (row.met.0.min(distance), row.met.1.max(distance));
            }
        }
        for (row, (_, _, seen)) in self.met.iter_mut().zip(MET) {
            row.states += u64::from(seen(s));
        }
    }
}
