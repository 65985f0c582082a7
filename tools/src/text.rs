//! The readable text: one item a line, in the order of the tagged fields. `task C R P [NAME]`,
//! `arrival SLOT WORK [LATEST] [NAME]`, `run SLOTS`; `#` starts a comment, blank lines are free.
//! A name begins with a letter; it is for the picture only and is no part of the fields.
//!
//! Whatever the fields cannot carry is refused here, by line. Whether the table is any good is the
//! scheduler's to say.

use std::fmt;
use std::str::FromStr;

pub const MOST_TASKS: usize = 16;
pub const LONGEST_RUN: u32 = 100_000;

#[derive(Clone, Debug, PartialEq, Eq)]
pub struct Task {
    pub work: u16,
    pub deadline: u16,
    pub period: u16,
    pub name: Option<String>,
}

#[derive(Clone, Debug, PartialEq, Eq)]
pub struct Arrival {
    pub slot: u32,
    pub work: u16,
    pub latest: Option<u32>,
    pub name: Option<String>,
}

#[derive(Clone, Debug, Default, PartialEq, Eq)]
pub struct Text {
    pub tasks: Vec<Task>,
    pub arrivals: Vec<Arrival>,
    pub slots: u32,
}

/// Why a text is refused, and at which line, from 1.
#[derive(Clone, Debug, PartialEq, Eq)]
pub struct Complaint {
    pub line: usize,
    pub reason: String,
}

impl fmt::Display for Complaint {
    fn fmt(&self, f: &mut fmt::Formatter) -> fmt::Result {
        write!(f, "line {}: {}", self.line, self.reason)
    }
}

fn number<N: FromStr>(word: &str, what: &str, most: u64) -> Result<N, String> {
    if word.is_empty() || !word.bytes().all(|b| b.is_ascii_digit()) {
        return Err(format!("{what} is to be a number, not '{word}'"));
    }
    let too_large = || format!("{what} is {word}, above {most}");
    match word.parse::<u64>() {
        Ok(n) if n <= most => word.parse().map_err(|_| too_large()),
        _ => Err(too_large()),
    }
}

fn short(word: &str, what: &str) -> Result<u16, String> {
    number(word, what, u16::MAX.into())
}

fn long(word: &str, what: &str) -> Result<u32, String> {
    number(word, what, u32::MAX.into())
}

/// The words less a name at their end, and the name.
fn split_name<'a, 'b>(words: &'b [&'a str]) -> (&'b [&'a str], Option<String>) {
    match words {
        [rest @ .., name] if name.starts_with(|c: char| c.is_alphabetic()) => {
            (rest, Some(name.to_string()))
        }
        _ => (words, None),
    }
}

impl Text {
    fn add_task(&mut self, words: &[&str]) -> Result<(), String> {
        let (numbers, name) = split_name(words);
        let [work, deadline, period] = numbers else {
            return Err("a task is 'task C R P', with a name after it or none".into());
        };
        if !self.arrivals.is_empty() {
            return Err("a task after an arrival: tasks come first".into());
        }
        if self.tasks.len() == MOST_TASKS {
            return Err(format!("more than {MOST_TASKS} tasks"));
        }
        self.tasks.push(Task {
            work: short(work, "work C")?,
            deadline: short(deadline, "deadline R")?,
            period: short(period, "period P")?,
            name,
        });
        Ok(())
    }

    fn add_arrival(&mut self, words: &[&str]) -> Result<(), String> {
        let (numbers, name) = split_name(words);
        let (slot, work, latest) = match numbers {
            [slot, work] => (slot, work, None),
            [slot, work, latest] => (slot, work, Some(long(latest, "latest finish")?)),
            _ => {
                let form = "'arrival SLOT WORK' or 'arrival SLOT WORK LATEST'";
                return Err(format!(
                    "an arrival is {form}, with a name after it or none"
                ));
            }
        };
        let slot = long(slot, "slot")?;
        if self.tasks.is_empty() {
            return Err("an arrival before any task".into());
        }
        if let Some(last) = self.arrivals.last().filter(|last| slot < last.slot) {
            let last = last.slot;
            return Err(format!("slot {slot} falls: the arrival before has {last}"));
        }
        self.arrivals.push(Arrival {
            slot,
            work: short(work, "work")?,
            latest,
            name,
        });
        Ok(())
    }

    fn end(&mut self, words: &[&str]) -> Result<(), String> {
        let [slots] = words else {
            return Err("the end is 'run SLOTS'".into());
        };
        if self.tasks.is_empty() {
            return Err("a run before any task".into());
        }
        self.slots = number(slots, "slots to run", LONGEST_RUN.into())?;
        Ok(())
    }
}

pub fn read(text: &str) -> Result<Text, Complaint> {
    let mut read = Text::default();
    let mut ended = false;
    let mut lines = 0;
    for (line, content) in (1..).zip(text.lines()) {
        lines = line;
        let content = content.split('#').next().unwrap_or("");
        let words: Vec<&str> = content.split_whitespace().collect();
        let done = match words[..] {
            [] => Ok(()),
            [item, ..] if ended => Err(format!("'{item}' after 'run', which is to be the last")),
            ["task", ..] => read.add_task(&words[1..]),
            ["arrival", ..] => read.add_arrival(&words[1..]),
            ["run", ..] => {
                ended = true;
                read.end(&words[1..])
            }
            [item, ..] => Err(format!("'{item}' is no item: task, arrival or run")),
        };
        done.map_err(|reason| Complaint { line, reason })?;
    }
    if ended {
        Ok(read)
    } else {
        Err(Complaint {
            line: lines + 1,
            reason: "the end is reached and there was no 'run SLOTS'".into(),
        })
    }
}

#[cfg(test)]
mod tests {
    use super::*;

    fn refused(text: &str) -> String {
        read(text).unwrap_err().to_string()
    }

    #[test]
    fn reads_every_item() {
        let text = "# M\ntask 2 3 5 fan\n\ntask 2 8 10 # no name\narrival 1 2\n\
                    arrival 4 1 9 gauge\nrun 10\n# end\n";
        let read = read(text).unwrap();
        assert_eq!(read.slots, 10);
        assert_eq!(read.tasks.len(), 2);
        assert_eq!(read.tasks[0].name.as_deref(), Some("fan"));
        assert_eq!((read.tasks[1].deadline, &read.tasks[1].name), (8, &None));
        assert_eq!(read.arrivals[0].latest, None);
        assert_eq!(read.arrivals[1].latest, Some(9));
        assert_eq!(read.arrivals[1].name.as_deref(), Some("gauge"));
    }

    #[test]
    fn names_line_and_reason() {
        assert_eq!(
            refused("task 1 2 3\nfoo 1\n"),
            "line 2: 'foo' is no item: task, arrival or run"
        );
        assert!(refused("task 1 2\n").starts_with("line 1: a task is"));
        assert!(refused("task 1 2 x y\n").ends_with("not 'x'"));
        assert!(refused("task 1 2 65536\n").ends_with("period P is 65536, above 65535"));
        assert!(refused("task 1 2 -3\n").ends_with("not '-3'"));
        assert!(refused("task 1 2 99999999999999999999999\n").ends_with("above 65535"));
        assert!(refused("task 1 2 3\narrival 4294967296 1\n").ends_with("above 4294967295"));
    }

    #[test]
    fn keeps_the_order_of_fields() {
        assert!(refused("arrival 1 1\n").ends_with("an arrival before any task"));
        assert!(refused("run 1\n").ends_with("a run before any task"));
        assert!(refused("task 1 2 3\narrival 1 1\ntask 1 2 3\n").starts_with("line 3"));
        assert!(refused("task 1 2 3\narrival 5 1\narrival 4 1\n").contains("falls"));
        assert!(refused("task 1 2 3\nrun 1\ntask 1 2 3\n").starts_with("line 3"));
        assert!(refused("task 1 2 3\nrun 100001\n").ends_with("above 100000"));
        assert_eq!(
            refused("task 1 2 3\n"),
            "line 2: the end is reached and there was no 'run SLOTS'"
        );
        assert!(refused(&"task 1 20 20\n".repeat(17)).starts_with("line 17: more than 16"));
    }
}
