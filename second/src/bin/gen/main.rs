//! Writes seeded inputs for the comparison: `gen --cases N --seed S --out DIR` makes
//! DIR/000000.bin and so on, the fixed boundary cases first and then random ones.
//! `gen --flood N --seed S` writes N byte strings, most of them files damaged twice, to standard
//! output as one stream, and `gen --single` every single damage of some good files. The same seed
//! always gives the same bytes.

mod arrivals;
mod damage;
mod encode;
mod fixed;
mod flood;
mod tables;

use encode::Case;
use second::rng::Rng;
use std::io::BufWriter;
use std::path::{Path, PathBuf};
use std::process::ExitCode;

/// In a long window short runs do, but some cross its end.
fn run_length(rng: &mut Rng, window: u64) -> u32 {
    let length = match rng.within(0, 199) {
        _ if window >= tables::LONG => match rng.within(0, 9) {
            0..=5 => rng.within(1, 500),
            6..=7 => rng.within(1, 3000),
            _ => window + rng.within(1, 300),
        },
        0..=3 => 0,
        4..=13 => rng.within(1, 10),
        14 => rng.within(2 * window.min(50_000), 100_000),
        15..=40 => rng.within(1, 2000),
        _ => rng.within(1, (3 * window).min(3000)),
    };
    length as u32
}

/// A sound input: fields in order and a run that is not too long, whatever the table is.
fn sound(rng: &mut Rng) -> Case {
    let tasks = match rng.within(0, 99) {
        0..=29 => tables::good(rng),
        30..=49 => tables::many(rng),
        50..=67 => tables::wide(rng),
        68..=73 => tables::full(rng),
        74..=85 => tables::tight(rng),
        86..=90 => tables::beyond_limits(rng),
        91..=95 => tables::long_window(rng),
        _ => tables::many_places(rng),
    };
    let (arrivals, slots) = match tables::accepted(&tasks) {
        Some(table) => {
            let slots = run_length(rng, table.window);
            (arrivals::along(rng, &table, slots), slots)
        }
        None => {
            let slots = rng.within(0, 100) as u32;
            (arrivals::blind(rng, slots), slots)
        }
    };
    Case {
        tasks,
        arrivals,
        slots,
    }
}

fn random_case(rng: &mut Rng) -> Vec<u8> {
    let mut pieces = sound(rng).fields();
    match rng.within(0, 99) {
        0..=1 => return damage::random_bytes(rng),
        2..=11 => damage::damage(rng, &mut pieces),
        12..=19 => {
            damage::damage(rng, &mut pieces);
            damage::damage(rng, &mut pieces);
        }
        _ => {}
    }
    pieces.concat()
}

fn write_all(cases: usize, seed: u64, out: &Path) -> std::io::Result<()> {
    std::fs::create_dir_all(out)?;
    let fixed = fixed::cases();
    let mut seeds = Rng::new(seed);
    for index in 0..cases {
        let bytes = match fixed.get(index) {
            Some(bytes) => bytes.clone(),
            None => random_case(&mut Rng::new(seeds.draw())),
        };
        std::fs::write(out.join(format!("{index:06}.bin")), bytes)?;
    }
    Ok(())
}

fn main() -> ExitCode {
    let words: Vec<String> = std::env::args().skip(1).collect();
    let mut cases: Option<usize> = None;
    let mut seed: Option<u64> = None;
    let mut out: Option<PathBuf> = None;
    let mut flood: Option<usize> = None;
    let single = words == ["--single"];
    for pair in words.chunks(2) {
        match pair {
            [flag, value] if flag == "--cases" => cases = value.parse().ok(),
            [flag, value] if flag == "--seed" => seed = value.parse().ok(),
            [flag, value] if flag == "--out" => out = Some(value.into()),
            [flag, value] if flag == "--flood" => flood = value.parse().ok(),
            _ => cases = None,
        }
    }
    let mut stream = BufWriter::new(std::io::stdout().lock());
    let written = match (cases, flood, seed, out) {
        (Some(cases), None, Some(seed), Some(out)) => write_all(cases, seed, &out),
        (None, Some(count), Some(seed), None) => flood::write_seeded(count, seed, &mut stream),
        (None, None, None, None) if single => flood::write_single(&mut stream),
        _ => {
            eprintln!("usage: gen --cases N --seed S --out DIR");
            eprintln!("   or: gen --flood N --seed S");
            eprintln!("   or: gen --single");
            return ExitCode::from(2);
        }
    };
    match written {
        Ok(()) => ExitCode::SUCCESS,
        Err(error) => {
            eprintln!("gen: {error}");
            ExitCode::FAILURE
        }
    }
}
