//! Prints each of document 01's own cases beside what the oracle gave.
use std::process::ExitCode;

fn main() -> ExitCode {
    let cases = checks::document::all();
    for case in &cases {
        println!(
            "{} | document: {} | oracle: {} | {}",
            case.input,
            case.expected,
            case.met,
            if case.agrees() { "agrees" } else { "DIFFERS" }
        );
    }
    let differing = cases.iter().filter(|case| !case.agrees()).count();
    println!("{} agree, {differing} differ", cases.len() - differing);
    ExitCode::from(u8::from(differing != 0))
}
