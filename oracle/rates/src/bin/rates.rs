//! Compares the proved nearest bit rate with the scan of all settings. With
//! no option: the gate. The last line is the summary.
use rates::{Side, cases, compare, scan};
use std::{hint::black_box, process::ExitCode, time::Instant};

const USAGE: &str = "\
rates [OPTIONS]        with no option: the gate
  --pairs N            so many random clocks and rates, each with seven
                       tolerances, and half as many ties
  --seed S             of the random ones
  --side capi|oracle   what stands beside the scan; oracle tries the run itself
  --coverage           print the counts
  --time               only: how long a call takes on both sides";

const GATE_PAIRS: usize = 250_000;

fn side(name: &str) -> Option<Side> {
    match name {
        #[cfg(feature = "capi")]
        "capi" => Some(rates::proved),
        "oracle" => Some(scan::answer),
        _ => None,
    }
}

/// Nanoseconds a call, over clocks and rates of the random ones: the least of
/// eleven rounds.
fn nanoseconds(side: Side, calls: usize) -> f64 {
    let pairs: Vec<_> = cases::random(&mut cases::Random(1), calls).collect();
    let round = || {
        let start = Instant::now();
        for (clock, rate, _) in &pairs {
            black_box(side(black_box(*clock), black_box(*rate), 10_000));
        }
        start.elapsed().as_nanos() as f64 / calls as f64
    };
    (0..11).map(|_| round()).fold(f64::MAX, f64::min)
}

fn main() -> ExitCode {
    let (mut pairs, mut seed) = (GATE_PAIRS, 0x5c13_0000);
    let (mut coverage, mut timed) = (false, false);
    let mut beside = side(if cfg!(feature = "capi") {
        "capi"
    } else {
        "oracle"
    });
    let mut words = std::env::args().skip(1);
    while let Some(word) = words.next() {
        let good = match word.as_str() {
            "--coverage" => {
                coverage = true;
                true
            }
            "--time" => {
                timed = true;
                true
            }
            "--pairs" => words
                .next()
                .and_then(|n| n.parse().ok())
                .map(|n| pairs = n)
                .is_some(),
            "--seed" => words
                .next()
                .and_then(|n| n.parse().ok())
                .map(|n| seed = n)
                .is_some(),
            "--side" => {
                beside = words.next().and_then(|name| side(&name));
                beside.is_some()
            }
            _ => false,
        };
        if !good {
            eprintln!("{USAGE}");
            return ExitCode::from(64);
        }
    }
    let Some(beside) = beside else {
        eprintln!("{USAGE}");
        return ExitCode::from(64);
    };
    if timed {
        let (call, plain) = (
            nanoseconds(beside, 20_000),
            nanoseconds(scan::answer, 2_000),
        );
        println!("a call {call:.0} ns, the scan {plain:.0} ns");
        return ExitCode::SUCCESS;
    }
    let mut r = cases::Random(seed | 1);
    let mut list = cases::corners();
    list.extend(cases::ties(&mut r, pairs / 2));
    list.extend(cases::random(&mut r, pairs));
    let met = compare(beside, list.into_iter());
    for ((f, r, t), wanted, got) in &met.differences {
        println!("{f} {r} {t}: {got:?}, and by the scan {wanted:?}");
    }
    if coverage {
        met.coverage
            .lines()
            .iter()
            .for_each(|line| println!("{line}"));
    }
    let missing = if pairs >= GATE_PAIRS {
        met.coverage.missing()
    } else {
        vec![]
    };
    missing.iter().for_each(|line| println!("{line}"));
    println!(
        "rates: {} triples, {} differences, {} counts below their floor",
        met.triples,
        met.differences.len(),
        missing.len()
    );
    if met.differences.is_empty() && missing.is_empty() {
        ExitCode::SUCCESS
    } else {
        ExitCode::FAILURE
    }
}
