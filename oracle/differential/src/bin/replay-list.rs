//! Writes the replay list, or with --check compares it with what would be
//! written.
use differential::scripts::{
    list::{cases, items, printout},
    writes,
};
use std::{fs, process::ExitCode};

const USAGE: &str = "\
replay-list CASES PRINTOUT           writes both files
replay-list --check CASES PRINTOUT   makes both again and compares";

fn main() -> ExitCode {
    let arguments: Vec<String> = std::env::args().skip(1).collect();
    let (check, paths) = match arguments.split_first() {
        Some((first, rest)) if first == "--check" => (true, rest),
        _ => (false, &arguments[..]),
    };
    let [first, second] = paths else {
        eprintln!("{USAGE}");
        return ExitCode::from(2);
    };
    match made(check, first, second) {
        Ok(line) => {
            println!("replay-list: {line}");
            ExitCode::SUCCESS
        }
        Err(line) => {
            eprintln!("replay-list: {line}");
            ExitCode::FAILURE
        }
    }
}

fn made(check: bool, first: &str, second: &str) -> Result<String, String> {
    let (items, writes) = (items(), writes::all());
    let printout = printout(&items, &writes)?.into_bytes();
    let cases = cases(&items, &writes);
    for (path, bytes) in [(first, &cases), (second, &printout)] {
        if check {
            let old = fs::read(path).map_err(|error| format!("{path}: {error}"))?;
            if let Some(at) = differs(&old, bytes) {
                return Err(format!(
                    "{path} is not what would be written, from byte {at}"
                ));
            }
        } else {
            fs::write(path, bytes).map_err(|error| format!("{path}: {error}"))?;
        }
    }
    Ok(format!(
        "{} scripts and {} writes in {} bytes, printout of {} bytes, {}",
        items.len(),
        writes.len(),
        cases.len(),
        printout.len(),
        if check { "as they stand" } else { "written" }
    ))
}

/// The first byte that differs, a missing one too.
fn differs(old: &[u8], new: &[u8]) -> Option<usize> {
    let common = old.iter().zip(new).position(|(old, new)| old != new);
    common.or((old.len() != new.len()).then_some(old.len().min(new.len())))
}
