//! Times. The sides take turns in one process, so that what disturbs the
//! machine disturbs all of them; the least and the median of many runs.
use crate::{
    clock::{Begun, Taken, sorted},
    sides::{Outcome, Side},
};
use differential::compare::state_fields;
use std::{hint::black_box, time::Duration};

/// Turns that each side has, and the fewest runs of a slow one.
const TURNS: u32 = 21;
const FEWEST: u32 = 3;

/// Nanoseconds of one whole run.
#[derive(Clone, Copy, Debug)]
pub struct Times {
    pub least: f64,
    pub median: f64,
}

/// The run itself, by the name under which its instructions are counted.
#[unsafe(no_mangle)]
#[inline(never)]
pub fn sci3_benchmark_run(side: &mut dyn Side) {
    side.run();
}

fn once(side: &mut dyn Side) -> Taken {
    side.reset();
    let begun = Begun::now();
    sci3_benchmark_run(black_box(side));
    begun.taken()
}

/// Every side has ended in the same state, with the same log.
pub fn same_end(sides: &[Box<dyn Side + '_>]) -> Result<(), String> {
    let mut first: Option<Outcome> = None;
    for (place, side) in sides.iter().enumerate() {
        let met = side.outcome().map_err(|e| format!("side {place}: {e}"))?;
        let Some(expected) = &first else {
            first = Some(met);
            continue;
        };
        if let Some(what) = difference(expected, &met) {
            return Err(format!("side {place} ends otherwise than side 0: {what}"));
        }
    }
    Ok(())
}

fn difference(a: &Outcome, b: &Outcome) -> Option<String> {
    let fields = state_fields(&a.state).into_iter();
    for ((name, one), (_, other)) in fields.zip(state_fields(&b.state)) {
        if one != other {
            return Some(format!("{name} is {other}, not {one}"));
        }
    }
    let at = a
        .log
        .iter()
        .zip(&b.log)
        .position(|(one, other)| one != other);
    match at {
        Some(at) => Some(format!("log byte {at} is {}, not {}", b.log[at], a.log[at])),
        None => (a != b).then(|| "another form of state or log".into()),
    }
}

/// The times of each side, about so long for each. A side that ends otherwise
/// is an error, at the first run or at the last.
pub fn times(sides: &mut [Box<dyn Side + '_>], budget: Duration) -> Result<Vec<Times>, String> {
    let mut runs: Vec<u32> = Vec::new();
    for side in sides.iter_mut() {
        let warm = sorted(&[once(side.as_mut())])[0].max(Duration::from_nanos(100));
        runs.push((budget.as_nanos() / warm.as_nanos()).clamp(FEWEST.into(), 10_000) as u32);
    }
    same_end(sides)?;
    let mut taken: Vec<Vec<Taken>> = vec![Vec::new(); sides.len()];
    for turn in 0..TURNS {
        for ((side, runs), taken) in sides.iter_mut().zip(&runs).zip(&mut taken) {
            for _ in share(*runs, turn) {
                taken.push(once(side.as_mut()));
            }
        }
    }
    same_end(sides)?;
    Ok(taken.iter().map(|taken| summary(&sorted(taken))).collect())
}

/// The runs that fall on one turn, all of them spread over the turns.
fn share(runs: u32, turn: u32) -> std::ops::Range<u32> {
    runs * turn / TURNS..runs * (turn + 1) / TURNS
}

/// Of times in order.
fn summary(taken: &[Duration]) -> Times {
    let nanoseconds = |place: usize| taken[place].as_nanos() as f64;
    Times {
        least: nanoseconds(0),
        median: nanoseconds(taken.len() / 2),
    }
}

#[cfg(test)]
mod tests {
    use super::*;
    use model::Oracle;

    /// A side that ends somewhere at once.
    struct Ended(Result<Outcome, String>);

    impl Side for Ended {
        fn reset(&mut self) {}
        fn run(&mut self) {}
        fn outcome(&self) -> Result<Outcome, String> {
            self.0.clone()
        }
    }

    fn beside(change: impl FnOnce(&mut Outcome)) -> Result<Vec<Times>, String> {
        let mut end = Outcome {
            state: Oracle::fresh().state(),
            log: vec![1, 2, 3],
        };
        let first = Ended(Ok(end.clone()));
        change(&mut end);
        let mut sides: [Box<dyn Side>; 2] = [Box::new(first), Box::new(Ended(Ok(end)))];
        times(&mut sides, Duration::from_micros(1))
    }

    #[test]
    fn no_figure_where_ends_differ() {
        assert!(beside(|_| {}).is_ok());
        let said = |what: &str| Err(format!("side 1 ends otherwise than side 0: {what}"));
        let figures = |change: fn(&mut Outcome)| beside(change).map(|_| ());
        assert_eq!(
            figures(|end| end.state.half = 1),
            said("half count is 1, not 0")
        );
        assert_eq!(
            figures(|end| end.log[2] = 9),
            said("log byte 2 is 9, not 3")
        );
        assert_eq!(
            figures(|end| end.log.push(0)),
            said("another form of state or log")
        );
        let mut sides: [Box<dyn Side>; 1] = [Box::new(Ended(Err("refused 2 at 0".into())))];
        assert!(times(&mut sides, Duration::from_micros(1)).is_err());
    }

    #[test]
    fn every_run_falls_on_one_turn() {
        for runs in [3, 20, 21, 1000] {
            let all: Vec<u32> = (0..TURNS).flat_map(|turn| share(runs, turn)).collect();
            assert_eq!(all, (0..runs).collect::<Vec<u32>>());
        }
    }

    #[test]
    fn least_and_median() {
        let times = summary(&[1, 5, 9].map(Duration::from_nanos));
        assert_eq!((times.least, times.median), (1.0, 5.0));
    }
}
