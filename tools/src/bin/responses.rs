//! `responses RUN`: 000's experiment with the run program RUN. For each of its eight loads the mean
//! response of the jobs of twenty sets, by our method, by background and by polling, beside 000's.
//! Every accepted job has to finish exactly at its promise; the few that find eight waiting are
//! counted as refused.

use std::io::Write;
use std::process::{Command, ExitCode, Stdio};
use tools::experiment::{case, TABLE_5};
use tools::listing::{self, Listing, Outcome, Who};
use tools::service::{background, polling, server_for};
use tools::text::Text;
use tools::{fields, refusals};

const SETS: u64 = 20;

/// The refusal of a job that finds eight waiting.
const EIGHT_WAIT: u32 = 11;

fn listed(run: &str, text: &Text) -> Result<Listing, String> {
    let failed = |error: std::io::Error| format!("{run}: {error}");
    let mut command = Command::new(run);
    let command = command.stdin(Stdio::piped()).stdout(Stdio::piped());
    let mut child = command.spawn().map_err(failed)?;
    let fields = fields::of(text)?;
    let mut input = child.stdin.take().ok_or("no standard input")?;
    input.write_all(&fields).map_err(failed)?;
    drop(input);
    let output = child.wait_with_output().map_err(failed)?;
    let told = String::from_utf8_lossy(&output.stdout);
    listing::read(&told).map_err(|bad| bad.to_string())
}

/// The responses of a listing's accepted jobs, by the slots that they ran in, and how many others
/// found eight waiting; no job is refused for another reason.
fn responses(listing: &Listing) -> Result<(Vec<u64>, usize), String> {
    let mut responses = Vec::new();
    let mut refused = 0;
    for asked in &listing.asked {
        let promise = match asked.outcome {
            Outcome::Promise(promise) => promise,
            Outcome::Refused(EIGHT_WAIT) => {
                refused += 1;
                continue;
            }
            Outcome::Refused(number) => {
                return Err(format!("a job was refused {}", refusals::told(number)));
            }
        };
        let last = |&who: &Who| who == Who::Job(promise);
        let ran = listing.slots.iter().rposition(last);
        if ran.map(|slot| slot as u64 + 1) != Some(promise) {
            return Err(format!("the job of promise {promise} did not end there"));
        }
        responses.push(promise - asked.slot);
    }
    Ok((responses, refused))
}

fn mean(responses: &[u64]) -> f64 {
    responses.iter().sum::<u64>() as f64 / responses.len() as f64
}

fn row(run: &str, load: usize) -> Result<String, String> {
    let (mut ours, mut behind, mut polled) = (Vec::new(), Vec::new(), Vec::new());
    let server = server_for(&case(load, 1).tasks).ok_or("no server fits")?;
    let mut refused = 0;
    for set in 1..=SETS {
        let text = case(load, set);
        let told = responses(&listed(run, &text)?)?;
        ours.extend(told.0);
        refused += told.1;
        behind.extend(background(&text));
        polled.extend(polling(&text, server));
    }
    let (name, background_000, polling_000, method_000) = TABLE_5[load];
    let (ours, behind, polled) = (mean(&ours), mean(&behind), mean(&polled));
    let (capacity, period) = (server.capacity, server.period);
    Ok(format!(
        "| {name} | {ours:.0} | {method_000} | {refused} | {behind:.0} | {background_000} | \
         {polled:.0} | {polling_000} | {capacity} of {period} |"
    ))
}

fn main() -> ExitCode {
    let words: Vec<String> = std::env::args().skip(1).collect();
    let [run] = &words[..] else {
        eprintln!("usage: responses RUN");
        return ExitCode::from(2);
    };
    println!("| load | ours | 000 | refused | background | 000 | polling | 000 | server |");
    println!("|--:|--:|--:|--:|--:|--:|--:|--:|--:|");
    for (load, (name, ..)) in TABLE_5.iter().enumerate() {
        match row(run, load) {
            Ok(line) => println!("{line}"),
            Err(reason) => {
                eprintln!("responses: load {name}: {reason}");
                return ExitCode::FAILURE;
            }
        }
    }
    ExitCode::SUCCESS
}
