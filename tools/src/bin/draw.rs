//! `draw FILE < listing > picture.svg`: the timeline of a run. FILE is the readable text that the
//! run's fields were made of. What cannot be drawn is told on standard error, with status 1.

use std::io::{Read, Write};
use std::process::ExitCode;
use tools::{listing, picture, text};

fn picture_of(file: &str) -> Result<String, String> {
    let text = std::fs::read_to_string(file).map_err(|error| format!("{file}: {error}"))?;
    let text = text::read(&text).map_err(|complaint| format!("{file}: {complaint}"))?;
    let mut told = String::new();
    let mut input = std::io::stdin();
    let read = input.read_to_string(&mut told);
    read.map_err(|error| format!("standard input: {error}"))?;
    let told = listing::read(&told).map_err(|bad| bad.to_string())?;
    picture::draw(&text, &told)
}

fn main() -> ExitCode {
    let words: Vec<String> = std::env::args().skip(1).collect();
    let [file] = &words[..] else {
        eprintln!("usage: draw FILE < listing > picture.svg");
        return ExitCode::from(2);
    };
    let written = picture_of(file).and_then(|svg| {
        let written = std::io::stdout().write_all(svg.as_bytes());
        written.map_err(|error| format!("standard output: {error}"))
    });
    match written {
        Ok(()) => ExitCode::SUCCESS,
        Err(reason) => {
            eprintln!("draw: {reason}");
            ExitCode::FAILURE
        }
    }
}
