//! Clocks, rates and tolerances: the corners of the ranges, random ones, and
//! ties on purpose.
use crate::scan::settings;
use std::collections::BTreeSet;

/// Marsaglia's exclusive-or and shifts, of 64 bits.
pub struct Random(pub u64);

impl Random {
    fn step(&mut self) -> u64 {
        self.0 ^= self.0 << 13;
        self.0 ^= self.0 >> 7;
        self.0 ^= self.0 << 17;
        self.0
    }
    pub fn below(&mut self, n: u64) -> u64 {
        ((u128::from(self.step()) * u128::from(n)) >> 64) as u64
    }
    /// 1 to `most`, each length in bits as often as another.
    fn spread(&mut self, most: u64) -> u64 {
        let bits = 64 - most.leading_zeros();
        let high = 1u64 << (self.below(u64::from(bits)) + 1);
        (1 + self.below(high)).min(most)
    }
}

pub type Pair = (u64, u64, Vec<u64>);

const CLOCKS: u64 = 20_000_000;
const RATES: u64 = 1_000_000;

/// The documents' own, and every corner of the ranges with its neighbours.
pub fn corners() -> Vec<Pair> {
    let around = |most: u64| {
        let near = [
            0,
            1,
            2,
            3,
            most / 2,
            most - 1,
            most,
            most + 1,
            1 << 32,
            u64::MAX,
        ];
        near.map(|n| [n, n.wrapping_add(1 << 32)]).concat()
    };
    let tolerances = vec![0, 1, 2, 9_999, 10_000, 10_001, 1 << 32, u64::MAX];
    let mut pairs: Vec<Pair> = [(3_686_400, 9_600), (64, 3), (540_672, 65), (22, 1)]
        .map(|(clock, rate)| (clock, rate, tolerances.clone()))
        .into();
    for clock in around(CLOCKS) {
        for rate in around(RATES) {
            pairs.push((clock, rate, tolerances.clone()));
        }
    }
    pairs
}

/// Any, by their length in bits, and near rates that a setting gives.
pub fn random(r: &mut Random, count: usize) -> impl Iterator<Item = Pair> {
    let periods: Vec<u64> = settings().map(|s| s.period).collect();
    (0..count).map(move |_| {
        let rate = r.spread(RATES);
        let clock = if r.below(2) == 0 {
            r.spread(CLOCKS)
        } else {
            let period = periods[r.below(1536) as usize];
            (rate * period + r.below(5))
                .saturating_sub(2)
                .clamp(1, CLOCKS)
        };
        (clock, rate, (0..4).map(|_| r.below(10_001)).collect())
    })
}

/// Rates in the middle of those of two periods that follow each other: f/P + f/Q is 2r where f is 2r·PQ/(P + Q). And one clock more or less.
pub fn ties(r: &mut Random, count: usize) -> impl Iterator<Item = Pair> {
    let periods: Vec<u64> = settings()
        .map(|s| s.period)
        .collect::<BTreeSet<_>>()
        .into_iter()
        .collect();
    (0..count).filter_map(move |_| {
        let i = r.below(periods.len() as u64 - 1) as usize;
        let (p, q) = (periods[i], periods[i + 1]);
        let step = (p + q) / gcd(2 * p * q, p + q);
        let rate = step * r.spread((RATES / step).max(1));
        let clock = 2 * rate * p * q / (p + q);
        let clock = (clock + r.below(3)).saturating_sub(1);
        (rate <= RATES && (1..=CLOCKS).contains(&clock)).then(|| (clock, rate, vec![10_000]))
    })
}

fn gcd(a: u64, b: u64) -> u64 {
    if b == 0 { a } else { gcd(b, a % b) }
}
