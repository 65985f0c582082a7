//! The reader of tagged fields. It judges one field after the other and stops at the first
//! refusal; the table is not looked at here.

use crate::faults::Fault;
use crate::table::{Task, MOST_TASKS};
use crate::{refuse, Refusal};

pub const LONGEST_INPUT: usize = 4096;
pub const LONGEST_RUN: usize = 100_000;

#[derive(Clone, Copy, Debug, PartialEq, Eq)]
pub struct Arrival {
    pub slot: u64,
    pub work: u64,
    pub latest: Option<u64>,
}

#[derive(Clone, Debug, PartialEq, Eq)]
pub struct Fields {
    pub tasks: Vec<Task>,
    pub arrivals: Vec<Arrival>,
    pub slots: u64,
}

/// The number held in the bytes, low byte first.
fn number(bytes: &[u8]) -> u64 {
    bytes.iter().rev().fold(0, |n, &b| n * 256 + u64::from(b))
}

fn known_tag(tag: u8) -> bool {
    matches!(tag, 1..=3)
}

fn right_length(tag: u8, length: usize) -> bool {
    match tag {
        1 => length == 6,
        2 => length == 6 || length == 10,
        3 => length == 4,
        _ => false,
    }
}

pub fn read(input: &[u8], fault: Fault) -> Result<Fields, Refusal> {
    if input.len() > fault.limit(Fault::LongInput, LONGEST_INPUT) {
        return refuse(20, 0);
    }
    let mut tasks: Vec<Task> = Vec::new();
    let mut arrivals: Vec<Arrival> = Vec::new();
    let mut at = 0;
    loop {
        let place = at as u64;
        let rest = &input[at..];
        if rest.is_empty() {
            return refuse(19, place);
        }
        if rest.len() < 3 {
            return refuse(16, place);
        }
        let tag = rest[0];
        let length_bytes = if fault == Fault::LengthHigh { 1 } else { 2 };
        let length = number(&rest[1..1 + length_bytes]) as usize;
        if fault == Fault::Order && !right_length(tag, length) {
            return refuse(18, place);
        }
        if fault == Fault::CutFirst && rest.len() < 3 + length {
            return refuse(16, place);
        }
        if !known_tag(tag) {
            return refuse(17, place);
        }
        if !right_length(tag, length) {
            return refuse(18, place);
        }
        if rest.len() < 3 + length {
            return refuse(16, place);
        }
        let body = &rest[3..3 + length];
        at += 3 + length;
        match tag {
            1 => {
                let seventeenth = tasks.len() == MOST_TASKS;
                if fault == Fault::SeventeenthFirst && seventeenth {
                    return refuse(1, place);
                }
                if !arrivals.is_empty() {
                    return refuse(19, place);
                }
                if seventeenth {
                    return refuse(1, place);
                }
                tasks.push(Task {
                    work: number(&body[0..2]),
                    deadline: number(&body[2..4]),
                    period: number(&body[4..6]),
                });
            }
            2 => {
                let slot = number(&body[0..4]);
                let falls = arrivals.last().is_some_and(|a| slot < a.slot);
                if tasks.is_empty() || (falls && fault != Fault::SlotsFall) {
                    return refuse(19, place);
                }
                arrivals.push(Arrival {
                    slot,
                    work: number(&body[4..6]),
                    latest: (length == 10).then(|| number(&body[6..10])),
                });
            }
            _ => {
                let slots = number(body);
                if tasks.is_empty() {
                    return refuse(19, place);
                }
                if slots > fault.limit(Fault::LongRun, LONGEST_RUN) as u64 {
                    return refuse(21, place);
                }
                if at < input.len() && fault != Fault::AfterEnd {
                    return refuse(19, at as u64);
                }
                return Ok(Fields {
                    tasks,
                    arrivals,
                    slots,
                });
            }
        }
    }
}
