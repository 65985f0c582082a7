//! The three printed answers: the run program's listing, the bench's view of the vectors and
//! tallies, and the boot call.

use crate::admit::admit;
use crate::chip::{Chip, Who};
use crate::faults::Fault;
use crate::fields::{self, Arrival, Fields};
use crate::latest::{moving_vector, static_vector};
use crate::table::{self, Table};
use crate::Refusal;

fn read_and_check(input: &[u8], fault: Fault) -> Result<(Fields, Table), Refusal> {
    let fields = fields::read(input, fault)?;
    let table = table::check(&fields.tasks, fault)?;
    Ok((fields, table))
}

fn bad_line(refusal: Refusal) -> String {
    format!("x {} {}\n", refusal.number, refusal.place)
}

fn arrival_line(chip: &mut Chip, arrival: &Arrival) -> String {
    let Arrival { slot, work, latest } = *arrival;
    match admit(chip, work, latest) {
        Ok(promise) => format!("a {slot} {work} {promise}\n"),
        Err(refusal) => format!("r {slot} {work} {}\n", refusal.number),
    }
}

fn slot_line(slot: u64, who: Who) -> String {
    match who {
        Who::Idle => format!("{slot} -\n"),
        Who::Task(number) => format!("{slot} P{number}\n"),
        Who::Job(promise) => format!("{slot} S{promise}\n"),
    }
}

fn vector_line(label: &str, numbers: &[u64]) -> String {
    let mut line = label.to_string();
    for number in numbers {
        line += &format!(" {number}");
    }
    line + "\n"
}

/// The bench's view of a state: tallies and moving vector.
fn state_lines(chip: &Chip) -> String {
    let tallies = format!("A {}\nI {}\n", chip.tally_jobs, chip.tally_idle);
    tallies + &vector_line("Y", &moving_vector(chip))
}

/// What a walk through the run tells besides the arrivals: every slot, or the state before each
/// arrival.
#[derive(PartialEq)]
enum Told {
    Slots,
    States,
}

fn walk(fields: &Fields, table: &Table, fault: Fault, told: Told) -> String {
    let mut out = String::new();
    let mut chip = Chip::power_on(table, fault);
    let mut arrivals = fields.arrivals.iter().peekable();
    for slot in 0..fields.slots {
        while let Some(arrival) = arrivals.next_if(|a| a.slot == slot) {
            if told == Told::States {
                out += &format!("at {slot}\n");
                out += &state_lines(&chip);
            }
            out += &arrival_line(&mut chip, arrival);
        }
        let who = chip.step();
        if told == Told::Slots {
            out += &slot_line(slot, who);
        }
    }
    out
}

pub fn run(input: &[u8], fault: Fault) -> String {
    let rest = match read_and_check(input, fault) {
        Err(refusal) => bad_line(refusal),
        Ok((fields, table)) => walk(&fields, &table, fault, Told::Slots),
    };
    format!("slot who\n{rest}")
}

pub fn show(input: &[u8], fault: Fault) -> String {
    let (fields, table) = match read_and_check(input, fault) {
        Err(refusal) => return bad_line(refusal),
        Ok(good) => good,
    };
    let fixed = static_vector(&table, fault);
    let mut out = format!("W {}\nplaces {}\n", table.window, table.places.len());
    out += &vector_line("K", &table.places);
    out += &vector_line("D", &fixed);
    out += &format!("F {}\n", fixed.iter().sum::<u64>());
    out + &walk(&fields, &table, fault, Told::States)
}

/// Number, place and window; the window is 0 on a refusal.
pub fn boot(input: &[u8], fault: Fault) -> String {
    match read_and_check(input, fault) {
        Ok((_, table)) => format!("0 0 {}\n", table.window),
        Err(refusal) => format!("{} {} 0\n", refusal.number, refusal.place),
    }
}
