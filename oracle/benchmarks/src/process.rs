//! The longest script and the empty one through whole programs, printing
//! included: ours, and the reference's driven by events and stepped. Each is a
//! process, timed from its start to its end, with pipes on either side.
use crate::{cases::longest, counting, measure::Row, timing::Times};
use std::{
    fs,
    io::{Read, Write},
    path::{Path, PathBuf},
    process::{Command, Stdio},
    time::Instant,
};

/// A program that takes longer, in nanoseconds, is run once, and its
/// instructions are not counted.
const LONG: f64 = 1e9;
const RUNS: usize = 41;

struct Process<'a> {
    program: &'a Path,
    arguments: &'a [&'a str],
    /// Its place among the sides of a script. None takes commands read
    /// beforehand, so that place stays empty.
    place: usize,
    taken: Vec<f64>,
    printed: Vec<u8>,
}

impl Process<'_> {
    fn run(&mut self, script: &[u8]) -> Result<(), String> {
        let text = |e: std::io::Error| format!("{}: {e}", self.program.display());
        let begun = Instant::now();
        let mut child = Command::new(self.program)
            .args(self.arguments)
            .stdin(Stdio::piped())
            .stdout(Stdio::piped())
            .spawn()
            .map_err(text)?;
        // A script fits a pipe, so nobody waits for anybody.
        let mut input = child.stdin.take().ok_or("no standard input")?;
        input.write_all(script).map_err(text)?;
        drop(input);
        let mut output = child.stdout.take().ok_or("no standard output")?;
        self.printed.clear();
        output.read_to_end(&mut self.printed).map_err(text)?;
        let status = child.wait().map_err(text)?;
        self.taken.push(begun.elapsed().as_nanos() as f64);
        let well = status.success().then_some(());
        well.ok_or_else(|| format!("{}: {status}", self.program.display()))
    }
    fn long(&self) -> bool {
        self.taken[0] > LONG
    }
    fn times(&mut self) -> Times {
        self.taken.sort_unstable_by(f64::total_cmp);
        Times {
            least: self.taken[0],
            median: self.taken[self.taken.len() / 2],
        }
    }
}

/// Every run of every side, in turns, prints the same.
fn run_all(sides: &mut [Process], script: &[u8]) -> Result<(), String> {
    let mut expected: Option<Vec<u8>> = None;
    for turn in 0..RUNS {
        for side in sides.iter_mut() {
            if turn > 0 && side.long() {
                continue;
            }
            side.run(script)?;
            let printed = &side.printed;
            if expected.get_or_insert_with(|| printed.clone()) != printed {
                return Err(format!("side {} prints otherwise than ours", side.place));
            }
        }
    }
    Ok(())
}

fn row(name: &str, ours: &Path, script: &[u8], limit: Option<f64>) -> Result<Row, String> {
    eprintln!("timing: {name}");
    let this = std::env::current_exe().map_err(|e| e.to_string())?;
    let mut sides = [
        (ours, &[][..], 0),
        (&this, &["--play", "events"][..], 1),
        (&this, &["--play", "halves"][..], 3),
    ]
    .map(|(program, arguments, place)| Process {
        program,
        arguments,
        place,
        taken: Vec::new(),
        printed: Vec::new(),
    });
    run_all(&mut sides, script).map_err(|e| format!("{name}: {e}"))?;
    let file = ScriptFile::new(script)?;
    let mut row = Row {
        name: name.into(),
        unit: "run",
        times: vec![None; 4],
        counts: vec![None; 4],
        over_events: None,
        over_stepped: limit,
    };
    for side in &mut sides {
        if counting::present() && !side.long() {
            let count = counting::of_process(side.program, side.arguments, &file.0)?;
            row.counts[side.place] = Some(count);
        }
        row.times[side.place] = Some(side.times());
    }
    Ok(row)
}

pub fn rows(ours: &Path) -> Result<Vec<Row>, String> {
    Ok(vec![
        row("empty script through the program", ours, &[], None)?,
        row(
            "longest script through the program",
            ours,
            &longest(),
            Some(0.001),
        )?,
    ])
}

/// The script of a process under valgrind, gone when no longer needed.
struct ScriptFile(PathBuf);

impl ScriptFile {
    fn new(script: &[u8]) -> Result<Self, String> {
        let name = format!("sci3-benchmarks-{}.script", std::process::id());
        let path = std::env::temp_dir().join(name);
        fs::write(&path, script).map_err(|e| format!("{}: {e}", path.display()))?;
        Ok(Self(path))
    }
}

impl Drop for ScriptFile {
    fn drop(&mut self) {
        let _ = fs::remove_file(&self.0);
    }
}
