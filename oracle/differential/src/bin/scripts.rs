//! Compares the oracle and the proved player on whole scripts. With no
//! option: the gate, which is the arrays and every part with a fixed seed and
//! asserted coverage. The last line is the summary.
use differential::{
    OraclePort,
    program::{self, Arguments, Said, Summary},
    scripts::{
        calls::{CallsPlayer, Wrong},
        coverage::Coverage,
        player::Player,
        run::{Make, Part, Walk, gate, long, report, run, self_test, trial},
    },
};
use std::{
    process::ExitCode,
    time::{Duration, Instant},
};

const USAGE: &str = "\
scripts [OPTIONS]      with no option: the gate
  --long               every part whole, and more random scripts
  --part NAME          only this part: two, three, running, running-three,
                       logs, lengths, resets, cycles, random
  --seed S             the first script's number in the part; each has the next
  --scripts N          so many scripts of the part, or so many random ones
  --seconds N          random scripts for so long
  --wrong K            wrong player K in place of the player; 0 names them
  --self-test          only: every wrong player must be reported
  --coverage           print the counts
  --threads N          as many as there are processors if not given
  --side capi|calls|oracle
                       what stands beside the reference: the proved player;
                       a player over the proved direct calls; one over the
                       oracle's, which tries the runner and compares no port";

/// Random scripts of the gate: with the other parts about a minute.
const GATE_SCRIPTS: u64 = 2_000_000;
const LONG_SCRIPTS: u64 = 10_000_000;
const SEED: u64 = 0x5c13_0000;
/// Coverage is asserted from so many random scripts on, when all parts run.
const ASSERTED_FROM: u64 = 100_000;
/// Random scripts for a wrong player to be reported.
const WRONG_SCRIPTS: u64 = 100_000;

#[derive(Clone, Copy, PartialEq)]
enum Side {
    Capi,
    Calls,
    Oracle,
}

struct Options {
    gate: bool,
    long: bool,
    part: Option<Part>,
    seed: Option<u64>,
    scripts: Option<u64>,
    time: Option<Duration>,
    wrong: Option<usize>,
    self_test: bool,
    coverage: bool,
    threads: u64,
    side: Side,
}

fn options() -> Result<Options, String> {
    let processors = std::thread::available_parallelism();
    let mut o = Options {
        gate: true,
        long: false,
        part: None,
        seed: None,
        scripts: None,
        time: None,
        wrong: None,
        self_test: false,
        coverage: false,
        threads: processors.map_or(1, |n| n.get() as u64),
        side: Side::Capi,
    };
    let mut arguments = Arguments::of_process();
    while let Some(name) = arguments.option() {
        // These leave the gate what it is.
        o.gate &= matches!(name.as_str(), "--coverage" | "--side" | "--threads");
        match name.as_str() {
            "--long" => o.long = true,
            "--part" => {
                let text = arguments.value()?;
                o.part = Some(Part::named(&text).ok_or(format!("{text} is no part"))?);
            }
            "--seed" => o.seed = Some(arguments.number()?),
            "--scripts" => o.scripts = Some(arguments.number()?),
            "--seconds" => o.time = Some(Duration::from_secs(arguments.number()?)),
            "--wrong" => o.wrong = Some(arguments.number()? as usize),
            "--self-test" => o.self_test = true,
            "--coverage" => o.coverage = true,
            "--threads" => o.threads = arguments.number()?.max(1),
            "--side" => {
                o.side = match arguments.value()?.as_str() {
                    "capi" => Side::Capi,
                    "calls" => Side::Calls,
                    "oracle" => Side::Oracle,
                    other => return Err(format!("{other} is no side")),
                }
            }
            _ => return Err(format!("{name} is no option\n{USAGE}")),
        }
    }
    // A time alone is for random scripts.
    if o.time.is_some() && o.part.is_none() {
        o.part = Some(Part::Random);
    }
    Ok(o)
}

impl Options {
    fn walks(&self) -> Vec<Walk> {
        let seed = self.seed.unwrap_or(SEED);
        match self.part {
            Some(Part::Random) => {
                let count = match self.time {
                    Some(_) => u64::MAX,
                    None => GATE_SCRIPTS,
                };
                let count = self.scripts.unwrap_or(count);
                vec![Walk::whole(Part::Random).from(seed, count)]
            }
            Some(part) => {
                let count = self.scripts.unwrap_or(u64::MAX);
                vec![Walk::whole(part).from(self.seed.unwrap_or(0), count)]
            }
            None if self.long => long(self.scripts.unwrap_or(LONG_SCRIPTS), seed),
            None => gate(self.scripts.unwrap_or(GATE_SCRIPTS), seed),
        }
    }
}

#[cfg(feature = "player")]
fn proved() -> Result<Box<dyn Player>, String> {
    Ok(Box::new(differential::scripts::proved::ProvedPlayer))
}
#[cfg(not(feature = "player"))]
fn proved() -> Result<Box<dyn Player>, String> {
    Err("built without the feature player, so there is no player to compare; --side oracle tries the runner itself".into())
}

#[cfg(feature = "capi")]
fn over_calls() -> Result<Box<dyn Player>, String> {
    let port = differential::capi::CapiPort::default();
    Ok(Box::new(CallsPlayer::new(port)))
}
#[cfg(not(feature = "capi"))]
fn over_calls() -> Result<Box<dyn Player>, String> {
    Err("built without the feature capi, so there is no port to compare".into())
}

/// What only the array of the proved player has.
#[cfg(feature = "player")]
fn arrays() -> (u64, Vec<String>) {
    differential::scripts::proved::arrays(SEED)
}
#[cfg(not(feature = "player"))]
fn arrays() -> (u64, Vec<String>) {
    (0, Vec::new())
}

fn player(o: &Options) -> Result<Box<dyn Player>, String> {
    if let Some(k) = o.wrong {
        let wrong = Wrong::ALL[k - 1];
        return Ok(Box::new(CallsPlayer::wrong(OraclePort::default(), wrong)));
    }
    match o.side {
        Side::Capi => proved(),
        Side::Calls => over_calls(),
        Side::Oracle => Ok(Box::new(CallsPlayer::new(OraclePort::default()))),
    }
}

fn main() -> ExitCode {
    let mut summary = Summary::begin();
    let options = match options() {
        Ok(options) => options,
        Err(line) => return usage(&line),
    };
    if options
        .wrong
        .is_some_and(|k| k == 0 || k > Wrong::ALL.len())
    {
        for (place, wrong) in Wrong::ALL.iter().enumerate() {
            println!("{:3} {}", place + 1, wrong.text());
        }
        return ExitCode::from(u8::from(options.wrong != Some(0)) * 2);
    }
    if !options.self_test
        && let Err(line) = player(&options)
    {
        return usage(&line);
    }
    let proved = options.side == Side::Capi && options.wrong.is_none();
    if !options.self_test {
        summary.add(parts(&options));
    }
    if (options.gate || options.long) && proved {
        summary.arrays(arrays());
    }
    if options.self_test {
        summary.add(wrong_players(options.threads));
    }
    if !proved && !options.self_test {
        summary.note(match (options.wrong, options.side) {
            (None, Side::Calls) => "NO PLAYER COMPARED, only the direct calls",
            _ => "NO PORT COMPARED, oracle on both sides",
        });
    }
    summary.end("scripts")
}

fn usage(line: &str) -> ExitCode {
    eprintln!("scripts: {line}");
    ExitCode::from(2)
}

fn wrong_players(threads: u64) -> Said {
    let tried = self_test(&trial(WRONG_SCRIPTS, SEED), threads);
    let mut missed = 0;
    for (place, one) in tried.iter().enumerate() {
        let outcome = match &one.found {
            Some((part, field, length)) => {
                format!("part {}, {field}, shrunk to {length} bytes", part.name())
            }
            None => {
                missed += 1;
                "NOT REPORTED".into()
            }
        };
        println!(
            "wrong player {:2} reported after {:8} scripts: {} ({outcome})",
            place + 1,
            one.scripts,
            one.wrong.text()
        );
    }
    let all = tried.len();
    (
        format!("{} of {all} wrong players reported", all - missed),
        missed == 0,
    )
}

fn parts(options: &Options) -> Said {
    let make = || player(options).expect("it was made before");
    let make: Make = &make;
    let mut coverage = Coverage::default();
    let mut counts: Vec<(Part, u64)> = Vec::new();
    for walk in options.walks() {
        let begun = Instant::now();
        let outcome = run(make, &walk, options.time, options.threads);
        coverage.add(&outcome.coverage);
        let scripts = outcome.coverage.scripts;
        println!(
            "part {:13} {scripts:10} scripts, {:12} bytes, {:11} records, {:6.1} s: {}",
            walk.part.name(),
            outcome.coverage.bytes,
            outcome.coverage.records,
            begun.elapsed().as_secs_f64(),
            walk.part.text()
        );
        match counts.last_mut() {
            Some((part, count)) if *part == walk.part => *count += scripts,
            _ => counts.push((walk.part, scripts)),
        }
        if let Some(found) = &outcome.found {
            println!("{}", report(make, found));
            return (
                format!("1 difference after {} scripts", coverage.scripts),
                false,
            );
        }
    }
    if options.coverage {
        coverage.print();
    }
    let (all, zero) = coverage.missing();
    let counts = counts
        .iter()
        .map(|(part, count)| format!("{} {count}", part.name()));
    let counts = counts.collect::<Vec<_>>().join(", ");
    let text = format!(
        "{} scripts ({}; {} bytes, {} records), 0 differences",
        coverage.scripts, counts, coverage.bytes, coverage.records
    );
    let few = options.scripts.is_some_and(|count| count < ASSERTED_FROM);
    let asserted = options.part.is_none() && !few;
    let (covered, good) = program::coverage(all, &zero, asserted);
    (format!("{text}, {covered}"), good)
}
