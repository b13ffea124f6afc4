//! The figures of the cases: each on each side, timed and counted.
use crate::{
    cases::Plan,
    counting,
    sides::{Kind, Side, side},
    timing::{Times, times},
};
use std::time::Duration;

/// About so long for each side of each case.
const BUDGET: Duration = Duration::from_millis(350);

/// One case: for each side the nanoseconds and instructions of one unit.
pub struct Row {
    pub name: String,
    pub unit: &'static str,
    pub times: Vec<Option<Times>>,
    pub counts: Vec<Option<f64>>,
    pub over_events: Option<f64>,
    pub over_stepped: Option<f64>,
}

impl Row {
    /// Ours, the first side, over another; by the least times.
    pub fn ratio(&self, place: usize) -> Option<f64> {
        Some(self.times[0]?.least / self.times[place]?.least)
    }
    pub fn median_ratio(&self, place: usize) -> Option<f64> {
        Some(self.times[0]?.median / self.times[place]?.median)
    }
    pub fn count_ratio(&self, place: usize) -> Option<f64> {
        Some(self.counts[0]? / self.counts[place]?)
    }
}

/// A plan on these sides, timed only.
pub fn row(plan: &Plan, kinds: &[Kind]) -> Result<Row, String> {
    let case = plan.case();
    let mut sides: Vec<Box<dyn Side + '_>> = Vec::new();
    for kind in kinds {
        sides.push(side(*kind, &case).ok_or("the port is not linked")?);
    }
    let units = case.units as f64;
    let times = times(&mut sides, BUDGET).map_err(|e| format!("{}: {e}", plan.name))?;
    let each = times.into_iter().map(|t| {
        Some(Times {
            least: t.least / units,
            median: t.median / units,
        })
    });
    Ok(Row {
        name: plan.name.into(),
        unit: plan.unit.name(),
        times: each.collect(),
        counts: vec![None; kinds.len()],
        over_events: plan.over_events,
        over_stepped: plan.over_stepped,
    })
}

/// The rows of these plans, counted too where valgrind is.
pub fn rows(plans: &[&Plan], kinds: &[Kind], child: &[String]) -> Result<Vec<Row>, String> {
    let mut rows = Vec::new();
    for plan in plans {
        eprintln!("timing: {}", plan.name);
        rows.push(row(plan, kinds)?);
    }
    if counting::present() {
        eprintln!("counting instructions");
        let counts = counting::counts(plans, kinds, child)?;
        for (row, counts) in rows.iter_mut().zip(counts) {
            row.counts = counts.into_iter().map(Some).collect();
        }
    }
    Ok(rows)
}
