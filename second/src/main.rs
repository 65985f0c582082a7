//! The command line: `second run|show|boot [--broken NAME]`, with the fields on standard input
//! and the answer on standard output. `second boots` reads many inputs, each behind its length in
//! four bytes, and answers a line for each. A wrong command line is told on standard error and
//! ends with status 2.

use second::faults::{Fault, AT_BOOT, NAMES};
use second::listing;
use std::io::{Read, Write};
use std::process::ExitCode;

fn usage() -> ExitCode {
    let names: Vec<&str> = NAMES.iter().map(|(name, _)| *name).collect();
    eprintln!("usage: second run|show|boot|boots [--broken NAME] < fields");
    eprintln!("NAME is one of: {}", names.join(" "));
    eprintln!("of these seen at boot: {}", names[..AT_BOOT].join(" "));
    ExitCode::from(2)
}

/// The boot answers to a stream of inputs, in their order; a cut stream ends it.
fn boots(mut stream: &[u8], fault: Fault) -> String {
    let mut text = String::new();
    while let Some((length, rest)) = stream.split_first_chunk::<4>() {
        let length = u32::from_le_bytes(*length) as usize;
        let Some((input, rest)) = rest.split_at_checked(length) else {
            break;
        };
        text.push_str(&listing::boot(input, fault));
        stream = rest;
    }
    text
}

fn main() -> ExitCode {
    let words: Vec<String> = std::env::args().skip(1).collect();
    let words: Vec<&str> = words.iter().map(String::as_str).collect();
    let (command, fault) = match words[..] {
        [command] => (command, Some(Fault::None)),
        [command, "--broken", name] => (command, Fault::named(name)),
        _ => return usage(),
    };
    let answer = match (command, fault) {
        ("run", Some(_)) => listing::run,
        ("show", Some(_)) => listing::show,
        ("boot", Some(_)) => listing::boot,
        ("boots", Some(_)) => boots,
        _ => return usage(),
    };
    let mut input = Vec::new();
    if let Err(error) = std::io::stdin().read_to_end(&mut input) {
        eprintln!("second: {error}");
        return ExitCode::FAILURE;
    }
    let text = answer(&input, fault.unwrap_or(Fault::None));
    if let Err(error) = std::io::stdout().write_all(text.as_bytes()) {
        eprintln!("second: {error}");
        return ExitCode::FAILURE;
    }
    ExitCode::SUCCESS
}
