//! `table FILE`: the tagged fields of a readable text, on standard output. A text that cannot be
//! carried is told on standard error, by line and reason, with status 1.

use std::io::Write;
use std::process::ExitCode;
use tools::{fields, text};

fn fields_of(file: &str) -> Result<Vec<u8>, String> {
    let text = std::fs::read_to_string(file).map_err(|error| format!("{file}: {error}"))?;
    let text = text::read(&text).map_err(|complaint| format!("{file}: {complaint}"))?;
    fields::of(&text).map_err(|reason| format!("{file}: {reason}"))
}

fn main() -> ExitCode {
    let words: Vec<String> = std::env::args().skip(1).collect();
    let [file] = &words[..] else {
        eprintln!("usage: table FILE > fields");
        return ExitCode::from(2);
    };
    let written = fields_of(file).and_then(|fields| {
        let written = std::io::stdout().write_all(&fields);
        written.map_err(|error| format!("standard output: {error}"))
    });
    match written {
        Ok(()) => ExitCode::SUCCESS,
        Err(reason) => {
            eprintln!("table: {reason}");
            ExitCode::FAILURE
        }
    }
}
