//! Writes the fuzzer's seeds into a folder, one file each: `fuzz-seeds FOLDER
//! [--only-text] TEXT..`, where a text is a script as in `examples/`.
use differential::fuzz::seeds;
use std::{fs, io, path::Path, process::ExitCode};

fn write(folder: &Path, texts: &[String], all: bool) -> io::Result<usize> {
    let mut made = Vec::new();
    for path in texts {
        made.push(seeds::text(&fs::read_to_string(path)?));
    }
    if all {
        made.extend(seeds::all());
    }
    fs::create_dir_all(folder)?;
    for (number, seed) in made.iter().enumerate() {
        fs::write(folder.join(format!("seed-{number:05}")), seed)?;
    }
    Ok(made.len())
}

fn main() -> ExitCode {
    let mut arguments: Vec<String> = std::env::args().skip(1).collect();
    let many = arguments.len();
    arguments.retain(|argument| argument != "--only-text");
    let all = arguments.len() == many;
    let Some((folder, texts)) = arguments.split_first() else {
        eprintln!("fuzz-seeds FOLDER [--only-text] TEXT..");
        return ExitCode::from(2);
    };
    match write(Path::new(folder), texts, all) {
        Ok(count) => {
            println!("{count} seeds in {folder}");
            ExitCode::SUCCESS
        }
        Err(error) => {
            eprintln!("fuzz-seeds: {error}");
            ExitCode::FAILURE
        }
    }
}
