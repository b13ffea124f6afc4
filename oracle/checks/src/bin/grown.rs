//! Prints the notes' tables of grown states beside what random lists met. A
//! number is how many lists are run.
use checks::grown::measure;
use std::process::ExitCode;

fn main() -> ExitCode {
    let lists = match std::env::args().nth(1).map(|text| text.parse()) {
        None => 300,
        Some(Ok(number)) => number,
        Some(Err(_)) => {
            eprintln!("grown: the argument is no number of lists");
            return ExitCode::from(2);
        }
    };
    let tables = match measure(lists) {
        Ok(tables) => tables,
        Err((seed, fault)) => {
            eprintln!("grown: list {seed}: {fault}");
            return ExitCode::FAILURE;
        }
    };
    println!("{lists} lists, {} states", tables.states);
    let mut differing = 0;
    let mut row = |agrees: bool, text: String| {
        differing += u32::from(!agrees);
        println!("{} {text}", if agrees { " " } else { "!" });
    };
    for held in tables.held {
        let text = format!(
            "holds | {} | {} states, {} against",
            held.row, held.premise, held.against
        );
        row(held.premise > 0 && held.against == 0, text);
    }
    for reach in tables.reach {
        let (notes, met) = (reach.notes, reach.met);
        let text = format!(
            "ahead | {} | notes {} to {} | met {} to {}",
            reach.row, notes.0, notes.1, met.0, met.1
        );
        row(notes == met, text);
    }
    for met in tables.met {
        let notes = if met.reached { "reached" } else { "never" };
        let text = format!("{notes} | {} | {} states", met.row, met.states);
        row(met.reached == (met.states > 0), text);
    }
    println!("{differing} rows differ");
    ExitCode::from(u8::from(differing != 0))
}
