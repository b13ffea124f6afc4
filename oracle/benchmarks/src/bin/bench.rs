//! The driver: measures all cases on all sides in one run and prints what they
//! take. Its status is not 0 where two sides end otherwise or something fails;
//! a ratio above its limit is only said.
use benchmarks::{
    counting, measure,
    port::Pace,
    process, program, report,
    sides::{self, CALLING, PLAYING},
    table::Table,
};
use std::{
    env,
    path::{Path, PathBuf},
    process::{Command, ExitCode},
};

const USAGE: &str = "usage: bench [--case TEXT] [--markdown | --document FILE]";
/// The lines of the document between which the figures stand.
const BEGIN: &str = "<!-- figures: written by ./bench --document, not by hand -->";
const END: &str = "<!-- end of figures -->";

#[derive(Default)]
struct Options {
    /// Only cases whose name holds this.
    case: String,
    markdown: bool,
    document: Option<PathBuf>,
    /// For the processes that the driver itself starts: a script from standard
    /// input, and the runs whose instructions are counted.
    play: Option<String>,
    count: Option<String>,
}

fn options() -> Option<Options> {
    let mut options = Options::default();
    let mut arguments = env::args().skip(1);
    while let Some(argument) = arguments.next() {
        match argument.as_str() {
            "--case" => options.case = arguments.next()?,
            "--markdown" => options.markdown = true,
            "--document" => options.document = Some(arguments.next()?.into()),
            "--play" => options.play = Some(arguments.next()?),
            "--count" => options.count = Some(arguments.next()?),
            _ => return None,
        }
    }
    Some(options)
}

fn main() -> ExitCode {
    let Some(options) = options() else {
        eprintln!("{USAGE}");
        return ExitCode::from(2);
    };
    match run(&options) {
        Ok(()) => ExitCode::SUCCESS,
        Err(what) => {
            eprintln!("bench: {what}");
            ExitCode::FAILURE
        }
    }
}

fn run(options: &Options) -> Result<(), String> {
    match (options.play.as_deref(), options.count.as_deref()) {
        (Some("events"), _) => program::main(Pace::Events),
        (Some("halves"), _) => program::main(Pace::Steps),
        (Some(_), _) => Err(USAGE.into()),
        (None, Some(name)) => {
            let kinds = sides::named(name).ok_or(USAGE)?;
            counting::run_all(&report::plans(&options.case), &kinds)
        }
        (None, None) => measure_all(options),
    }
}

fn measure_all(options: &Options) -> Result<(), String> {
    let plans = report::plans(&options.case);
    if plans.is_empty() {
        return Err(format!("no case has {:?} in its name", options.case));
    }
    let child = |kinds: &str| ["--case", &options.case, "--count", kinds].map(String::from);
    let mut playing = measure::rows(&plans, &PLAYING, &child("playing"))?;
    let calling = measure::rows(&plans, &CALLING, &child("calling"))?;
    let mut notes = Vec::new();
    if options.case.is_empty() {
        let ours = program_path();
        if ours.is_file() {
            playing.extend(process::rows(&ours)?);
        } else {
            notes.push("Not measured: scripts through the program, which is not built.");
        }
    }
    if !counting::present() {
        notes.push("Instructions were not counted: valgrind is not here.");
    }
    let text = text(options, &playing, &calling, &notes);
    match &options.document {
        None => print!("{text}"),
        Some(path) => put(path, &text)?,
    }
    Ok(())
}

fn text(
    options: &Options,
    playing: &[measure::Row],
    calling: &[measure::Row],
    notes: &[&str],
) -> String {
    let markdown = options.markdown || options.document.is_some();
    let mut text = format!("{}\n", commit());
    let mut add = |title: &str, table: Table| {
        text += &if markdown {
            format!("\n### {title}\n\n{}", table.markdown())
        } else {
            format!("\n{title}\n{}", table.plain())
        };
    };
    add(
        "Scripts: nanoseconds for one unit",
        report::playing(playing),
    );
    add(
        "Single calls: nanoseconds for one unit",
        report::calling(calling),
    );
    if counting::present() {
        add(
            "Scripts: instructions for one unit",
            report::playing_counts(playing),
        );
        add(
            "Single calls: instructions for one unit",
            report::calling_counts(calling),
        );
    }
    add(
        "What the scripts hold",
        report::scripts(&report::plans(&options.case)),
    );
    let (kept, limits) = report::kept(playing);
    text += &format!("\nAll sides ended the same. Limits of time kept: {kept} of {limits}.\n");
    for note in notes {
        text += &format!("{note}\n");
    }
    text
}

/// The repository's root is two above this crate.
fn root() -> PathBuf {
    Path::new(env!("CARGO_MANIFEST_DIR")).join("../..")
}

/// As `play` finds it.
fn program_path() -> PathBuf {
    match env::var_os("SCI3_PROGRAM").filter(|path| !path.is_empty()) {
        Some(path) => path.into(),
        None => root().join("target/bin/sci3"),
    }
}

/// The commit that is measured, and whether what is measured is changed.
fn commit() -> String {
    let git = |arguments: &[&str]| {
        let output = Command::new("git")
            .current_dir(root())
            .args(arguments)
            .output();
        let output = output.ok().filter(|output| output.status.success())?;
        Some(String::from_utf8_lossy(&output.stdout).trim().to_string())
    };
    let Some(commit) = git(&["rev-parse", "--short", "HEAD"]) else {
        return "Measured at an unknown commit.".into();
    };
    match git(&["status", "--porcelain", "--", "crates", "oracle"]) {
        Some(changes) if changes.is_empty() => format!("Measured at commit {commit}."),
        _ => format!("Measured at commit {commit} with changes."),
    }
}

/// Put the text between the two lines of the document.
fn put(path: &Path, text: &str) -> Result<(), String> {
    let wrong = |e: std::io::Error| format!("{}: {e}", path.display());
    let old = std::fs::read_to_string(path).map_err(wrong)?;
    let parts = old
        .split_once(BEGIN)
        .and_then(|(before, rest)| Some((before, rest.split_once(END)?.1)));
    let (before, after) = parts.ok_or("the document has no place for figures")?;
    std::fs::write(path, format!("{before}{BEGIN}\n{text}{END}{after}")).map_err(wrong)
}
