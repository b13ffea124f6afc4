//! The nearest bit rate of document 02, "Three", a second time: all 1,536
//! settings are tried, with rates and distances as fractions of 128 bits. No
//! code in common with the proved one, which decides by six divisions.
pub mod cases;
pub mod coverage;
pub mod scan;
pub mod wrong;

/// What is written to the port, and the error; or the refusal's number.
#[derive(Clone, Copy, Debug, PartialEq, Eq)]
pub enum Answer {
    Found {
        select: u64,
        semr: u64,
        brr: u64,
        /// f − r·P, and r·P.
        error: (i64, u64),
    },
    Refused(u64),
}

/// Whoever answers a clock, a wanted rate and a tolerance.
pub type Side = fn(u64, u64, u64) -> Answer;

/// The proved call, by its C function.
#[cfg(feature = "capi")]
pub fn proved(clock: u64, rate: u64, tolerance: u64) -> Answer {
    unsafe extern "C" {
        fn sci3_rate(clock: u64, rate: u64, tolerance: u64, told: *mut u64) -> u64;
    }
    // Whatever the numbers held before.
    let mut told = [u64::MAX; 5];
    // Safe: five numbers, lent for the call only.
    match unsafe { sci3_rate(clock, rate, tolerance, told.as_mut_ptr()) } {
        0 => Answer::Found {
            select: told[0],
            semr: told[1],
            brr: told[2],
            error: (told[3] as i64, told[4]),
        },
        number => {
            assert_eq!(told, [0; 5], "told by a refusal");
            Answer::Refused(number)
        }
    }
}

/// The first triple that two sides answer otherwise, with both answers.
pub type Difference = ((u64, u64, u64), Answer, Answer);

/// What a run met.
#[derive(Default)]
pub struct Outcome {
    pub triples: u64,
    pub coverage: coverage::Coverage,
    pub differences: Vec<Difference>,
}

/// Compares a side with the scan on triples of a clock and a rate, and
/// several tolerances for each. Ends at the tenth difference.
pub fn compare(side: Side, pairs: impl Iterator<Item = (u64, u64, Vec<u64>)>) -> Outcome {
    let mut met = Outcome::default();
    for (clock, rate, mut tolerances) in pairs {
        let nearest = scan::nearest(clock, rate);
        tolerances.extend(scan::edges(clock, rate, nearest));
        for tolerance in tolerances {
            let wanted = scan::judged(clock, rate, tolerance, nearest);
            let got = side(clock, rate, tolerance);
            met.triples += 1;
            met.coverage.count(clock, rate, tolerance, nearest, wanted);
            if got != wanted {
                met.differences
                    .push(((clock, rate, tolerance), wanted, got));
                if met.differences.len() == 10 {
                    return met;
                }
            }
        }
    }
    met
}
