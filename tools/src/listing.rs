//! The listing that `run` prints: who has each slot, and what became of each arrival.

use crate::refusals;
use std::fmt;

#[derive(Clone, Copy, Debug, PartialEq, Eq)]
pub enum Who {
    Idle,
    /// Numbered from 1.
    Task(usize),
    /// The job of a promise.
    Job(u64),
}

#[derive(Clone, Copy, Debug, PartialEq, Eq)]
pub enum Outcome {
    Promise(u64),
    Refused(u32),
}

/// What became of an arrival, with the line's own slot and work.
#[derive(Clone, Copy, Debug, PartialEq, Eq)]
pub struct Asked {
    pub slot: u64,
    pub work: u64,
    pub outcome: Outcome,
}

#[derive(Clone, Debug, Default, PartialEq, Eq)]
pub struct Listing {
    pub slots: Vec<Who>,
    pub asked: Vec<Asked>,
}

#[derive(Clone, Debug, PartialEq, Eq)]
pub enum Bad {
    /// The run refused its input.
    Refused { number: u32, place: u64 },
    /// No line of a listing, from 1.
    Line(usize),
}

impl fmt::Display for Bad {
    fn fmt(&self, f: &mut fmt::Formatter) -> fmt::Result {
        match self {
            Bad::Refused { number, place } => {
                let told = refusals::told(*number);
                write!(f, "the run refused its input: {told}, place {place}")
            }
            Bad::Line(line) => write!(f, "line {line} of the listing is of no known form"),
        }
    }
}

fn who(word: &str) -> Option<Who> {
    if word == "-" {
        return Some(Who::Idle);
    }
    match word.split_at_checked(1)? {
        ("P", number) => number.parse().ok().filter(|&n| n > 0).map(Who::Task),
        ("S", promise) => promise.parse().ok().map(Who::Job),
        _ => None,
    }
}

impl Listing {
    fn add(&mut self, words: &[&str]) -> Option<()> {
        match *words {
            [kind @ ("a" | "r"), slot, work, told] => {
                let outcome = match kind {
                    "a" => Outcome::Promise(told.parse().ok()?),
                    _ => Outcome::Refused(told.parse().ok()?),
                };
                self.asked.push(Asked {
                    slot: slot.parse().ok()?,
                    work: work.parse().ok()?,
                    outcome,
                });
            }
            [slot, told] if slot.parse() == Ok(self.slots.len()) => self.slots.push(who(told)?),
            _ => return None,
        }
        Some(())
    }
}

pub fn read(text: &str) -> Result<Listing, Bad> {
    let mut read = Listing::default();
    let mut lines = (1..).zip(text.lines());
    if lines.next().is_none_or(|(_, first)| first != "slot who") {
        return Err(Bad::Line(1));
    }
    let mut refused = None;
    for (line, content) in lines {
        let words: Vec<&str> = content.split(' ').collect();
        // A refusal of the input stands alone.
        let added = match words[..] {
            _ if refused.is_some() => None,
            ["x", number, place] if line == 2 => {
                refused = refusal(number, place);
                refused.as_ref().map(|_| ())
            }
            _ => read.add(&words),
        };
        added.ok_or(Bad::Line(line))?;
    }
    refused.map_or(Ok(read), Err)
}

fn refusal(number: &str, place: &str) -> Option<Bad> {
    let (number, place) = (number.parse().ok()?, place.parse().ok()?);
    Some(Bad::Refused { number, place })
}

#[cfg(test)]
mod tests {
    use super::*;

    #[test]
    fn reads_every_line() {
        let text = "slot who\n0 P1\na 1 2 4\nr 1 0 10\n1 S4\n2 -\n";
        let read = read(text).unwrap();
        assert_eq!(read.slots, [Who::Task(1), Who::Job(4), Who::Idle]);
        let outcomes: Vec<Outcome> = read.asked.iter().map(|a| a.outcome).collect();
        assert_eq!(outcomes, [Outcome::Promise(4), Outcome::Refused(10)]);
    }

    #[test]
    fn a_refusal_is_told() {
        let bad = read("slot who\nx 6 3\n").unwrap_err();
        let told = "the run refused its input: 6 (overloaded), place 3";
        assert_eq!(bad.to_string(), told);
        let (number, place) = (6, 3);
        assert_eq!(bad, Bad::Refused { number, place });
    }

    #[test]
    fn the_listing_of_the_definition() {
        let text = "slot who\n0 P1\na 1 2 4\n1 P1\n2 S4\n3 S4\n4 P2\n5 P1\n6 P1\n7 P2\n8 -\n9 -\n";
        let read = read(text).unwrap();
        let (one, two, job) = (Who::Task(1), Who::Task(2), Who::Job(4));
        let idle = Who::Idle;
        let expected = [one, one, job, job, two, one, one, two, idle, idle];
        assert_eq!(read.slots, expected);
        let asked = Asked {
            slot: 1,
            work: 2,
            outcome: Outcome::Promise(4),
        };
        assert_eq!(read.asked, [asked]);
    }

    #[test]
    fn numbers_as_large_as_a_run_has_them() {
        let read = read("slot who\na 0 30000 7199970001\nr 0 65535 10\n0 S7199970001\n").unwrap();
        assert_eq!(read.asked[0].outcome, Outcome::Promise(7_199_970_001));
        assert_eq!(read.asked[1].work, 65_535);
        assert_eq!(read.slots, [Who::Job(7_199_970_001)]);
    }

    #[test]
    fn other_lines_are_bad() {
        assert_eq!(read(""), Err(Bad::Line(1)));
        assert_eq!(read("slot who\n1 P1\n"), Err(Bad::Line(2)));
        assert_eq!(read("slot who\n0 P0\n"), Err(Bad::Line(2)));
        assert_eq!(read("slot who\n0 Q\n"), Err(Bad::Line(2)));
        assert_eq!(read("slot who\n0 \u{e9}\n"), Err(Bad::Line(2)));
        assert_eq!(read("slot who \n"), Err(Bad::Line(1)));
        for line in [
            "",
            "0",
            "0 ",
            "0 P",
            "0 P17x",
            "0 S",
            "0 S-1",
            "0  P1",
            "0 P1 ",
            "a 0 1",
            "a 0 1 x",
            "a 0 1 2 3",
            "r 0 x 10",
            "r -1 1 10",
            "x 6",
            "x 6 y",
            "x 6 3 0",
            "b 0 1 2",
            "- 0",
        ] {
            assert_eq!(
                read(&format!("slot who\n{line}\n")),
                Err(Bad::Line(2)),
                "{line}"
            );
        }
        assert_eq!(read("slot who\n0 -\n0 -\n"), Err(Bad::Line(3)));
        assert_eq!(read("slot who\n0 -\n2 -\n"), Err(Bad::Line(3)));
        assert_eq!(read("slot who\n0 -\nx 6 3\n"), Err(Bad::Line(3)));
        assert_eq!(read("slot who\nx 6 3\n0 -\n"), Err(Bad::Line(3)));
    }
}
