//! Wrong answers that a run must report: the scan with one mistake in it.
use crate::{
    Answer, Side,
    scan::{self, Setting, judged, settings},
};

/// Each with its name.
pub const WRONG: &[(&str, Side)] = &[
    ("nearest in the period", in_period),
    ("ties to the later setting", later),
    ("ties to the larger divider", larger_divider),
    ("a cell of 16 before one of 32", short_first),
    ("ties to the larger BRR", larger_brr),
    ("an error of just the tolerance refused", strict),
    ("the error with the wrong sign", other_sign),
    ("the error over P alone", over_period),
    ("the error reduced", reduced),
    ("products of 32 bits", wrapping),
    ("the rate not below the wanted one", not_below),
    ("12 before 11", twelve_first),
];

/// The least by a key, the first where several are; the order is the list's.
fn by<K: PartialOrd>(list: impl Iterator<Item = Setting>, key: impl Fn(Setting) -> K) -> Setting {
    let mut best: Option<(K, Setting)> = None;
    for setting in list {
        let here = key(setting);
        if best.as_ref().is_none_or(|(least, _)| here < *least) {
            best = Some((here, setting));
        }
    }
    best.expect("a list of settings").1
}

/// |f/P − r| as a number that can be compared: over a multiple of all
/// periods, 64 · 32 · lcm(1..256) being too long, as a pair for `by`.
#[derive(Clone, Copy)]
struct Distance(i128, i128);
impl PartialEq for Distance {
    fn eq(&self, other: &Self) -> bool {
        self.0 * other.1 == other.0 * self.1
    }
}
impl PartialOrd for Distance {
    fn partial_cmp(&self, other: &Self) -> Option<std::cmp::Ordering> {
        (self.0 * other.1).partial_cmp(&(other.0 * self.1))
    }
}
fn distance(f: u64, r: u64, s: Setting) -> Distance {
    let p = i128::from(s.period);
    Distance((i128::from(f) - i128::from(r) * p).abs(), p)
}

fn with(f: u64, r: u64, t: u64, pick: impl Fn() -> Setting) -> Answer {
    if !scan::in_range(f, r, t) {
        return Answer::Refused(11);
    }
    let nearest = scan::Nearest {
        setting: pick(),
        shared: false,
        larger_divider: false,
    };
    judged(f, r, t, Some(nearest))
}

fn in_period(f: u64, r: u64, t: u64) -> Answer {
    with(f, r, t, || by(settings(), |s| distance(f, r, s).0))
}
fn later(f: u64, r: u64, t: u64) -> Answer {
    let list: Vec<_> = settings().collect();
    with(f, r, t, || {
        by(list.iter().rev().copied(), |s| distance(f, r, s))
    })
}
fn larger_divider(f: u64, r: u64, t: u64) -> Answer {
    let list = || {
        [3, 2, 0]
            .into_iter()
            .flat_map(|n| settings().filter(move |s| s.select == n))
    };
    with(f, r, t, || by(list(), |s| distance(f, r, s)))
}
fn short_first(f: u64, r: u64, t: u64) -> Answer {
    let list = || {
        [0, 2, 3]
            .into_iter()
            .flat_map(|n| [16, 32].map(move |c| (n, c)))
            .flat_map(|(n, c)| settings().filter(move |s| s.select == n && s.cell == c))
    };
    with(f, r, t, || by(list(), |s| distance(f, r, s)))
}
fn larger_brr(f: u64, r: u64, t: u64) -> Answer {
    let list: Vec<_> = settings().collect();
    let list = || {
        list.chunks(256)
            .flat_map(|column| column.iter().rev().copied())
    };
    with(f, r, t, || by(list(), |s| distance(f, r, s)))
}
fn strict(f: u64, r: u64, t: u64) -> Answer {
    match scan::answer(f, r, t) {
        Answer::Found { error: (n, d), .. }
            if u128::from(n.unsigned_abs()) * 10_000 == u128::from(t) * u128::from(d) =>
        {
            Answer::Refused(12)
        }
        answer => answer,
    }
}

fn error(answer: Answer, change: impl Fn(i64, u64) -> (i64, u64)) -> Answer {
    match answer {
        Answer::Found {
            select,
            semr,
            brr,
            error: (n, d),
        } => Answer::Found {
            select,
            semr,
            brr,
            error: change(n, d),
        },
        refused => refused,
    }
}
fn other_sign(f: u64, r: u64, t: u64) -> Answer {
    error(scan::answer(f, r, t), |n, d| (-n, d))
}
fn over_period(f: u64, r: u64, t: u64) -> Answer {
    error(scan::answer(f, r, t), |n, d| (n, d / r))
}
fn reduced(f: u64, r: u64, t: u64) -> Answer {
    fn gcd(a: u64, b: u64) -> u64 {
        if b == 0 { a } else { gcd(b, a % b) }
    }
    error(scan::answer(f, r, t), |n, d| {
        let by = gcd(n.unsigned_abs(), d);
        (n / by as i64, d / by)
    })
}
fn wrapping(f: u64, r: u64, t: u64) -> Answer {
    with(f, r, t, || {
        by(settings(), |s| {
            let product = (r as u32).wrapping_mul(s.period as u32);
            Distance(
                i128::from(f.abs_diff(u64::from(product))),
                i128::from(s.period),
            )
        })
    })
}
fn not_below(f: u64, r: u64, t: u64) -> Answer {
    with(f, r, t, || {
        by(settings(), |s| {
            let above = u128::from(f) >= u128::from(r) * u128::from(s.period);
            let Distance(miss, period) = distance(f, r, s);
            Distance(if above { miss } else { miss + (1 << 60) }, period)
        })
    })
}
fn twelve_first(f: u64, r: u64, t: u64) -> Answer {
    match scan::nearest(f, r) {
        Some(nearest) if t > 10_000 => {
            let d = u128::from(r) * u128::from(nearest.setting.period);
            let beyond = u128::from(f).abs_diff(d) * 10_000 > u128::from(t) * d;
            Answer::Refused(if beyond { 12 } else { 11 })
        }
        nearest => judged(f, r, t, nearest),
    }
}

#[cfg(test)]
mod tests {
    use super::WRONG;
    use crate::{cases, compare};

    #[test]
    fn each_is_reported() {
        for (name, side) in WRONG {
            let mut r = cases::Random(7);
            let mut pairs = cases::corners();
            pairs.extend(cases::ties(&mut r, 4_000));
            pairs.extend(cases::random(&mut r, 4_000));
            let met = compare(*side, pairs.into_iter());
            assert!(!met.differences.is_empty(), "{name} is not reported");
        }
    }
}
