//! Compares the oracle and the proved port. With no option: the gate, which
//! is the documents' cases, every word, the arrays, the alterations, and all
//! families with a fixed seed and asserted coverage. The last line is the
//! summary.
use differential::{
    OraclePort, Port,
    alter::ALTERATIONS,
    document,
    program::{self, Arguments, Said, Summary},
    run::{Family, Outcome, Plan, Sides, report, run, self_test},
    words::{self, WORDS},
};
use std::{
    process::ExitCode,
    time::{Duration, Instant},
};

const USAGE: &str = "\
runner [OPTIONS]       with no option: the gate
  --seconds N          families for so long
  --calls N            families for so many calls
  --seed S             the first list's seed; each list has the next
  --family a|b|c       only lists from fresh ports, from given states, or on
                       states that fail the field test
  --alter K            put alteration K on the reference; --alter 0 names them
  --self-test          only: every alteration must be reported
  --document           only: the documents' cases on both sides, and arrays
                       that are no state
  --words              only: every word beside the reference's frame.rs
  --coverage           print the counts
  --side capi|oracle   what stands beside the reference; oracle tries the
                       runner itself and compares no port";

/// Calls of the gate: with the other parts under a minute.
const GATE_CALLS: u64 = 24_000_000;
const GATE_SEED: u64 = 0x5c13_0000;
/// Coverage is asserted from so many calls on, when all families run.
const ASSERTED_FROM: u64 = 4_000_000;
/// At most so many calls for an alteration to be reported.
const ALTERED_CALLS: u64 = 2_000_000;

#[derive(Clone, Copy, PartialEq)]
enum Side {
    Capi,
    Oracle,
}

struct Options {
    plan: Plan,
    gate: bool,
    alter: Option<usize>,
    self_test: bool,
    document: bool,
    words: bool,
    coverage: bool,
    side: Side,
}

fn options() -> Result<Options, String> {
    let mut o = Options {
        plan: Plan {
            family: None,
            seed: GATE_SEED,
            calls: GATE_CALLS,
            time: None,
        },
        gate: true,
        alter: None,
        self_test: false,
        document: false,
        words: false,
        coverage: false,
        side: Side::Capi,
    };
    let mut arguments = Arguments::of_process();
    while let Some(name) = arguments.option() {
        // These leave the gate what it is.
        o.gate &= matches!(name.as_str(), "--coverage" | "--side" | "--seed");
        match name.as_str() {
            "--seconds" => o.plan.time = Some(Duration::from_secs(arguments.number()?)),
            "--calls" => o.plan.calls = arguments.number()?,
            "--seed" => o.plan.seed = arguments.number()?,
            "--family" => {
                let letter = arguments.value()?;
                let family = Family::from_letter(&letter);
                o.plan.family = Some(family.ok_or(format!("{letter} is no family"))?);
            }
            "--alter" => o.alter = Some(arguments.number()? as usize),
            "--self-test" => o.self_test = true,
            "--document" => o.document = true,
            "--words" => o.words = true,
            "--coverage" => o.coverage = true,
            "--side" => {
                o.side = match arguments.value()?.as_str() {
                    "capi" => Side::Capi,
                    "oracle" => Side::Oracle,
                    other => return Err(format!("{other} is no side")),
                }
            }
            _ => return Err(format!("{name} is no option\n{USAGE}")),
        }
    }
    Ok(o)
}

#[cfg(feature = "capi")]
fn capi() -> Result<Box<dyn Port>, String> {
    Ok(Box::new(differential::capi::CapiPort::default()))
}
#[cfg(not(feature = "capi"))]
fn capi() -> Result<Box<dyn Port>, String> {
    Err("built without the feature capi, so there is no port to compare; --side oracle tries the runner itself".into())
}

/// What only the array of the proved port has.
#[cfg(feature = "capi")]
fn arrays(seed: u64) -> (u64, Vec<String>) {
    use differential::{capi, compare::Start, states};
    let mut states = Vec::new();
    for seed in seed..seed + 3000 {
        let case = states::given(seed);
        if let (Start::Given(state), Some(call)) = (case.start, case.calls.first()) {
            states.push((state, *call));
        }
    }
    let (tried, mut wrong) = capi::arrays();
    let (more, worse) = capi::unused(&states);
    wrong.extend(worse);
    (tried + more, wrong)
}
#[cfg(not(feature = "capi"))]
fn arrays(_: u64) -> (u64, Vec<String>) {
    (0, Vec::new())
}

fn main() -> ExitCode {
    let mut summary = Summary::begin();
    let built = options().and_then(|o| {
        let port = match o.side {
            Side::Capi => capi()?,
            Side::Oracle => Box::new(OraclePort::default()),
        };
        Ok((o, port))
    });
    let (options, port) = match built {
        Ok(built) => built,
        Err(line) => {
            eprintln!("runner: {line}");
            return ExitCode::from(2);
        }
    };
    let mut sides = Sides {
        reference: Box::new(OraclePort::default()),
        port,
    };
    if options.alter.is_some_and(|k| k > ALTERATIONS.len()) || options.alter == Some(0) {
        for (place, alteration) in ALTERATIONS.iter().enumerate() {
            println!("{:3} {}", place + 1, alteration.name);
        }
        return ExitCode::from(u8::from(options.alter != Some(0)) * 2);
    }

    if options.gate || options.document {
        summary.add(documents(&mut sides));
        if options.side == Side::Capi {
            summary.arrays(arrays(options.plan.seed));
        }
    }
    if options.gate || options.words {
        summary.add(words(&mut sides));
    }
    if options.gate || options.self_test {
        summary.add(alterations(&mut sides, options.plan.seed));
    }
    if !options.self_test && !options.document && !options.words {
        summary.add_first(families(&mut sides, &options));
    }
    if options.side == Side::Oracle {
        summary.note("NO PORT COMPARED, oracle on both sides");
    }
    summary.end("differential")
}

fn documents(sides: &mut Sides) -> Said {
    let mut cases = 0;
    let mut differing = 0;
    let (reference, port) = sides.both();
    for (side, parts) in [
        ("reference", document::all(reference)),
        ("port", document::all(port)),
    ] {
        cases = parts.len();
        for part in parts.iter().filter(|part| !part.agrees()) {
            differing += 1;
            println!(
                "DOCUMENT {}: document {}, {side} {}",
                part.case, part.expected, part.met
            );
        }
    }
    (
        format!("{cases} cases of the documents on both sides, {differing} differ"),
        differing == 0,
    )
}

fn words(sides: &mut Sides) -> Said {
    let outcome = words::all(&mut *sides.port);
    for line in outcome.wrong.iter().take(20) {
        println!("WORD {line}");
    }
    let text = format!(
        "{} of {WORDS} words, {} differ",
        outcome.compared,
        outcome.wrong.len()
    );
    (text, outcome.good())
}

fn alterations(sides: &mut Sides, seed: u64) -> Said {
    let tried = self_test(sides, seed, ALTERED_CALLS);
    let mut missed = 0;
    for (place, one) in tried.iter().enumerate() {
        let outcome = match &one.found {
            Some((field, calls)) => format!("{field}, shrunk to {calls} calls"),
            None => {
                missed += 1;
                "NOT REPORTED".into()
            }
        };
        println!(
            "alteration {:2} reported after {:7} calls: {} ({outcome})",
            place + 1,
            one.calls,
            one.name
        );
    }
    (
        format!(
            "{} of {} alterations reported",
            tried.len() - missed,
            tried.len()
        ),
        missed == 0,
    )
}

fn families(sides: &mut Sides, options: &Options) -> Said {
    let begun = Instant::now();
    let alteration = options.alter.map(|k| &ALTERATIONS[k - 1]);
    let outcome = run(sides, &options.plan, alteration);
    let seconds = begun.elapsed().as_secs_f64();
    if let Some(found) = &outcome.found {
        println!("{}", report(sides, found, alteration));
    }
    if options.coverage {
        outcome.coverage.print();
    }
    let (coverage, covered) = coverage(&outcome, options);
    let [a, b, c] = outcome.calls;
    let total = outcome.total();
    let text = format!(
        "{total} calls (a {a}, b {b}, c {c}; {} lists, {} halves, {:.0} calls/s), {} differences, {coverage}",
        outcome.lists,
        outcome.coverage.halves,
        total as f64 / seconds.max(0.001),
        u8::from(outcome.found.is_some())
    );
    (text, outcome.found.is_none() && covered)
}

fn coverage(outcome: &Outcome, options: &Options) -> Said {
    let (counts, zero) = outcome.coverage.missing();
    let asserted = outcome.found.is_none()
        && options.plan.family.is_none()
        && outcome.total() >= ASSERTED_FROM;
    program::coverage(counts, &zero, asserted)
}
