//! All settings, one after the other.
use crate::Answer;
use std::{cmp::Ordering, sync::LazyLock};

/// A setting with its period, the system cycles of one cell.
#[derive(Clone, Copy, Debug, PartialEq, Eq)]
pub struct Setting {
    pub select: u64,
    pub cell: u64,
    pub brr: u64,
    pub period: u64,
}

/// The nearest, and whether another period is as near.
#[derive(Clone, Copy, Debug)]
pub struct Nearest {
    pub setting: Setting,
    pub shared: bool,
    /// Whether the same rate comes from a larger divider too.
    pub larger_divider: bool,
}

/// In the order of the ties: the smaller divider, then cell 32, then the
/// smaller BRR.
pub fn settings() -> impl Iterator<Item = Setting> {
    [(0, 1), (2, 16), (3, 64)]
        .into_iter()
        .flat_map(|(select, divider)| [32, 16].map(move |cell| (select, divider, cell)))
        .flat_map(|(select, divider, cell)| {
            (0..256).map(move |brr| Setting {
                select,
                cell,
                brr,
                period: divider * cell * (brr + 1),
            })
        })
}

static SETTINGS: LazyLock<Vec<Setting>> = LazyLock::new(|| settings().collect());

/// A fraction that is not negative.
#[derive(Clone, Copy)]
struct Fraction(i128, i128);

impl Fraction {
    fn order(self, other: Self) -> Ordering {
        (self.0 * other.1).cmp(&(other.0 * self.1))
    }
}

/// |f/P − r|.
fn distance(clock: u64, rate: u64, period: u64) -> Fraction {
    let (f, r, p) = (i128::from(clock), i128::from(rate), i128::from(period));
    Fraction((f - r * p).abs(), p)
}

pub fn in_range(clock: u64, rate: u64, tolerance: u64) -> bool {
    !(clock == 0 || clock > 20_000_000 || rate == 0 || rate > 1_000_000 || tolerance > 10_000)
}

/// None where clock or rate is outside its range.
pub fn nearest(clock: u64, rate: u64) -> Option<Nearest> {
    if !in_range(clock, rate, 0) {
        return None;
    }
    let mut best = *SETTINGS.first()?;
    let mut least = distance(clock, rate, best.period);
    let (mut shared, mut larger_divider) = (false, false);
    for setting in SETTINGS.iter().copied().skip(1) {
        let here = distance(clock, rate, setting.period);
        match here.order(least) {
            Ordering::Less => (best, least, shared, larger_divider) = (setting, here, false, false),
            Ordering::Equal => {
                shared |= setting.period != best.period;
                larger_divider |= setting.select != best.select;
            }
            Ordering::Greater => {}
        }
    }
    Some(Nearest {
        setting: best,
        shared,
        larger_divider,
    })
}

/// The answer by the tolerance.
pub fn judged(clock: u64, rate: u64, tolerance: u64, nearest: Option<Nearest>) -> Answer {
    let (Some(Nearest { setting, .. }), true) = (nearest, in_range(clock, rate, tolerance)) else {
        return Answer::Refused(11);
    };
    let denominator = i128::from(rate) * i128::from(setting.period);
    let numerator = i128::from(clock) - denominator;
    // The error, |numerator| / denominator, against the tolerance in parts per ten thousand.
    let tolerance = Fraction(i128::from(tolerance), 10_000);
    if tolerance
        .order(Fraction(numerator.abs(), denominator))
        .is_lt()
    {
        return Answer::Refused(12);
    }
    Answer::Found {
        select: setting.select,
        semr: if setting.cell == 16 { 8 } else { 0 },
        brr: setting.brr,
        error: (numerator as i64, denominator as u64),
    }
}

/// The tolerances at the error's edge: the largest below it, the next, and
/// one more.
pub fn edges(clock: u64, rate: u64, nearest: Option<Nearest>) -> Vec<u64> {
    let Some(nearest) = nearest else {
        return vec![];
    };
    let denominator = u128::from(rate) * u128::from(nearest.setting.period);
    let edge = (u128::from(clock).abs_diff(denominator) * 10_000 / denominator).min(20_000) as u64;
    vec![edge.saturating_sub(1), edge, edge + 1]
}

/// The scan as a side.
pub fn answer(clock: u64, rate: u64, tolerance: u64) -> Answer {
    judged(clock, rate, tolerance, nearest(clock, rate))
}
