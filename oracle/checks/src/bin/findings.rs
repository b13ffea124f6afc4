//! Prints one line for each finding of docs/DIFFERENCES.md and the others. With
//! `--inputs` the inputs follow each line; a number is how many random runs
//! each measured finding takes.
use checks::findings::{all, others};
use std::process::ExitCode;

fn main() -> ExitCode {
    let mut inputs = false;
    let mut size = 500;
    for argument in std::env::args().skip(1) {
        match argument.parse() {
            Ok(number) => size = number,
            Err(_) if argument == "--inputs" => inputs = true,
            Err(_) => {
                eprintln!("findings: {argument} is neither --inputs nor a number of runs");
                return ExitCode::from(2);
            }
        }
    }
    let findings = [all(size), others(size)].concat();
    for finding in &findings {
        println!("{}", finding.line());
        for part in finding.parts.iter().filter(|_| inputs) {
            let mark = if part.agrees() { ' ' } else { '!' };
            println!("  {mark} {} -> {}", part.input, part.met);
        }
    }
    let differing = findings.iter().filter(|f| !f.confirmed()).count();
    println!(
        "{} confirmed, {differing} differ",
        findings.len() - differing
    );
    ExitCode::from(u8::from(differing != 0))
}
