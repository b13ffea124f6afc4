//! Instructions, by callgrind. One process under valgrind runs each side of
//! each case twice, a short script and one of twice its rounds; callgrind
//! collects inside the measured function alone and writes its counts after
//! each run. The difference is what the rounds cost, without what a run costs
//! once.
use crate::{
    cases::Plan,
    sides::{Kind, side},
    timing::sci3_benchmark_run,
};
use std::{
    fs,
    path::{Path, PathBuf},
    process::{Command, Stdio},
};

const FUNCTION: &str = "sci3_benchmark_run";

/// The child's work, in the order in which the parent reads the counts.
pub fn run_all(plans: &[&Plan], kinds: &[Kind]) -> Result<(), String> {
    for plan in plans {
        for rounds in [plan.counted, 2 * plan.counted] {
            let case = plan.of_rounds(rounds);
            for kind in kinds {
                let mut side = side(*kind, &case).ok_or("the port is not linked")?;
                sci3_benchmark_run(side.as_mut());
                side.outcome()?;
            }
        }
    }
    Ok(())
}

/// Whether valgrind is here.
pub fn present() -> bool {
    Command::new("valgrind")
        .arg("--version")
        .stdout(Stdio::null())
        .stderr(Stdio::null())
        .status()
        .is_ok_and(|status| status.success())
}

/// Instructions for one unit, by plan and kind.
pub fn counts(plans: &[&Plan], kinds: &[Kind], child: &[String]) -> Result<Vec<Vec<f64>>, String> {
    let folder = Folder::new()?;
    let toggle = format!("--toggle-collect={FUNCTION}");
    let dump = format!("--dump-after={FUNCTION}");
    callgrind(&folder, &[&toggle, &dump], |command| {
        let this = std::env::current_exe().map_err(|e| e.to_string())?;
        command.arg(this).args(child);
        Ok(())
    })?;
    let mut part = 0;
    let mut next = || {
        part += 1;
        total(&folder.0.join(format!("out.{part}")))
    };
    let mut all = Vec::new();
    for plan in plans {
        let mut counts = [Vec::new(), Vec::new()];
        for size in &mut counts {
            for _ in kinds {
                size.push(next()?);
            }
        }
        let units =
            (plan.of_rounds(2 * plan.counted).units - plan.of_rounds(plan.counted).units) as f64;
        let [short, long] = counts;
        let each = short
            .iter()
            .zip(&long)
            .map(|(short, long)| (long - short) / units);
        all.push(each.collect());
    }
    Ok(all)
}

/// Instructions of a whole process that reads the script.
pub fn of_process(program: &Path, arguments: &[&str], script: &Path) -> Result<f64, String> {
    let folder = Folder::new()?;
    callgrind(&folder, &[], |command| {
        let input = fs::File::open(script).map_err(|e| e.to_string())?;
        command.arg(program).args(arguments).stdin(input);
        Ok(())
    })?;
    total(&folder.0.join("out"))
}

fn callgrind(
    folder: &Folder,
    options: &[&str],
    what: impl FnOnce(&mut Command) -> Result<(), String>,
) -> Result<(), String> {
    let mut command = Command::new("valgrind");
    command
        .args(["--quiet", "--tool=callgrind"])
        .arg(format!(
            "--callgrind-out-file={}",
            folder.0.join("out").display()
        ))
        .args(options)
        .stdout(Stdio::null());
    what(&mut command)?;
    let status = command.status().map_err(|e| format!("valgrind: {e}"))?;
    status
        .success()
        .then_some(())
        .ok_or(format!("valgrind: {status}"))
}

/// The count of one file of callgrind's.
fn total(path: &Path) -> Result<f64, String> {
    let text = fs::read_to_string(path).map_err(|e| format!("{}: {e}", path.display()))?;
    text.lines()
        .find_map(|line| {
            line.strip_prefix("totals: ")
                .or(line.strip_prefix("summary: "))
        })
        .and_then(|number| number.trim().parse().ok())
        .ok_or_else(|| format!("{}: no count", path.display()))
}

/// A folder for callgrind's files, gone when no longer needed.
struct Folder(PathBuf);

impl Folder {
    fn new() -> Result<Self, String> {
        let folder = std::env::temp_dir().join(format!("sci3-benchmarks-{}", std::process::id()));
        fs::create_dir_all(&folder).map_err(|e| format!("{}: {e}", folder.display()))?;
        Ok(Self(folder))
    }
}

impl Drop for Folder {
    fn drop(&mut self) {
        let _ = fs::remove_dir_all(&self.0);
    }
}
