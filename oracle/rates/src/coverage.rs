//! What a run met, with the least that it must.
use crate::{Answer, scan::Nearest};
use std::collections::BTreeMap;

#[derive(Default)]
pub struct Coverage(BTreeMap<&'static str, u64>);

/// Each with the least count of the gate's run.
const FLOORS: &[(&str, u64)] = &[
    ("select 0", 100_000),
    ("select 2", 10_000),
    ("select 3", 5_000),
    ("cell 32", 100_000),
    ("cell 16", 50_000),
    ("BRR 0", 10_000),
    ("BRR 255", 500),
    ("error 0", 5_000),
    ("error above 0", 50_000),
    ("error below 0", 50_000),
    ("accepted at just the tolerance", 500),
    ("accepted with tolerance 10000", 20_000),
    ("accepted with tolerance 0", 1_000),
    ("two periods equally near", 5_000),
    ("a larger divider equally near", 10_000),
    ("refused 11: clock 0", 50),
    ("refused 11: clock above", 50),
    ("refused 11: rate 0", 50),
    ("refused 11: rate above", 50),
    ("refused 11: tolerance above alone", 50),
    ("refused 12", 100_000),
    ("refused 12 one part below the error", 50_000),
];

impl Coverage {
    fn met(&mut self, what: &'static str, so: bool) {
        if so {
            *self.0.entry(what).or_default() += 1;
        }
    }

    pub fn count(
        &mut self,
        clock: u64,
        rate: u64,
        tolerance: u64,
        nearest: Option<Nearest>,
        answer: Answer,
    ) {
        match (answer, nearest) {
            (
                Answer::Found {
                    select,
                    semr,
                    brr,
                    error: (numerator, denominator),
                },
                Some(nearest),
            ) => {
                self.met("select 0", select == 0);
                self.met("select 2", select == 2);
                self.met("select 3", select == 3);
                self.met("cell 32", semr == 0);
                self.met("cell 16", semr == 8);
                self.met("BRR 0", brr == 0);
                self.met("BRR 255", brr == 255);
                self.met("error 0", numerator == 0);
                self.met("error above 0", numerator > 0);
                self.met("error below 0", numerator < 0);
                let just = u128::from(numerator.unsigned_abs()) * 10_000
                    == u128::from(tolerance) * u128::from(denominator);
                self.met("accepted at just the tolerance", just && numerator != 0);
                self.met("accepted with tolerance 10000", tolerance == 10_000);
                self.met("accepted with tolerance 0", tolerance == 0);
                self.met("two periods equally near", nearest.shared);
                self.met("a larger divider equally near", nearest.larger_divider);
            }
            (Answer::Refused(11), _) => {
                self.met("refused 11: clock 0", clock == 0);
                self.met("refused 11: clock above", clock > 20_000_000);
                self.met("refused 11: rate 0", rate == 0);
                self.met("refused 11: rate above", rate > 1_000_000);
                self.met("refused 11: tolerance above alone", nearest.is_some());
            }
            (_, Some(nearest)) => {
                self.met("refused 12", true);
                let denominator = u128::from(rate) * u128::from(nearest.setting.period);
                let miss = u128::from(clock).abs_diff(denominator) * 10_000;
                self.met(
                    "refused 12 one part below the error",
                    miss <= (u128::from(tolerance) + 1) * denominator,
                );
            }
            _ => {}
        }
    }

    /// What was met too seldom.
    pub fn missing(&self) -> Vec<String> {
        FLOORS
            .iter()
            .map(|(what, least)| (what, least, self.0.get(what).copied().unwrap_or(0)))
            .filter(|(_, least, met)| met < least)
            .map(|(what, least, met)| format!("{what}: {met} times, {least} are the least"))
            .collect()
    }

    pub fn lines(&self) -> Vec<String> {
        FLOORS
            .iter()
            .map(|(what, _)| format!("{what}: {}", self.0.get(what).unwrap_or(&0)))
            .collect()
    }
}
