//! Plays the script given as hexadecimal bytes on a fresh port, prints what
//! the program prints, and then the state.
use std::process::ExitCode;

fn main() -> ExitCode {
    let mut script = Vec::new();
    for text in std::env::args().skip(1).flat_map(|argument| {
        let words: Vec<String> = argument.split_whitespace().map(str::to_string).collect();
        words
    }) {
        match u8::from_str_radix(&text, 16) {
            Ok(byte) => script.push(byte),
            Err(_) => {
                eprintln!("play: {text} is no byte in hexadecimal");
                return ExitCode::from(2);
            }
        }
    }
    match checks::printed(&script) {
        Ok((lines, port)) => {
            println!("{lines}");
            println!("{:#x?}", port.state());
            ExitCode::SUCCESS
        }
        Err(fault) => {
            eprintln!("play: {fault}");
            ExitCode::FAILURE
        }
    }
}
