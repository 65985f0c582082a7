//! The table check: limits, the window by stepping through multiples, the places by marking
//! slots, and the demand counted slot by slot.

use crate::faults::Fault;
use crate::{refuse, Refusal};

pub const MOST_TASKS: usize = 16;
pub const LONGEST_PERIOD: u64 = 10_000;
pub const LONGEST_WINDOW: u64 = 30_000;
pub const MOST_PLACES: usize = 1024;

#[derive(Clone, Copy, Debug, PartialEq, Eq)]
pub struct Task {
    pub work: u64,
    /// Relative to the release.
    pub deadline: u64,
    pub period: u64,
}

/// A table that passed the check.
#[derive(Clone, Debug, PartialEq, Eq)]
pub struct Table {
    pub tasks: Vec<Task>,
    pub window: u64,
    pub places: Vec<u64>,
}

impl Task {
    fn within_limits(&self) -> bool {
        1 <= self.work
            && self.work <= self.deadline
            && self.deadline <= self.period
            && self.period <= LONGEST_PERIOD
    }
}

/// Steps through the multiples of the longest period up to the first that is one of every period.
fn window(tasks: &[Task]) -> Option<u64> {
    let longest = tasks.iter().map(|t| t.period).max()?;
    let mut multiple = longest;
    while multiple <= LONGEST_WINDOW {
        if tasks.iter().all(|t| multiple % t.period == 0) {
            return Some(multiple);
        }
        multiple += longest;
    }
    None
}

/// The product of the periods, a window of the fault of that name.
fn product(tasks: &[Task]) -> Option<u64> {
    let mut product = 1;
    for task in tasks {
        product *= task.period;
        if product > LONGEST_WINDOW {
            return None;
        }
    }
    Some(product)
}

/// Marks offset 0 and every offset of the window that is a deadline, and lists the marks.
fn places(tasks: &[Task], window: u64) -> Vec<u64> {
    let mut marked = vec![false; window as usize + 1];
    marked[0] = true;
    for task in tasks {
        let mut release = 0;
        while release < window {
            marked[(release + task.deadline) as usize] = true;
            release += task.period;
        }
    }
    (0..=window).filter(|&t| marked[t as usize]).collect()
}

/// The work of the window's requests that is due at each offset, 0 to W.
pub fn due_in_window(tasks: &[Task], window: u64) -> Vec<u64> {
    let mut due = vec![0; window as usize + 1];
    for task in tasks {
        let mut release = 0;
        while release < window {
            due[(release + task.deadline) as usize] += task.work;
            release += task.period;
        }
    }
    due
}

/// The offsets by which more work is due than there are slots, rising.
fn overloads(due: &[u64]) -> impl Iterator<Item = u64> + '_ {
    let mut total = 0;
    let offsets = (0..).zip(due).filter(move |(t, work)| {
        total += *work;
        total > *t
    });
    offsets.map(|(t, _)| t)
}

/// Refusals 1 to 4 and 6.
pub fn check(tasks: &[Task], fault: Fault) -> Result<Table, Refusal> {
    if tasks.is_empty() || tasks.len() > MOST_TASKS {
        return refuse(1, 0);
    }
    let bad = (1..).zip(tasks).filter(|(_, t)| !t.within_limits());
    if let Some((number, _)) = fault.first(Fault::LastBad, bad) {
        return refuse(2, number);
    }
    let window = match fault {
        Fault::Window => product(tasks),
        _ => window(tasks),
    };
    let Some(window) = window else {
        return refuse(3, 0);
    };
    let places = places(tasks, window);
    if places.len() > fault.limit(Fault::ManyPlaces, MOST_PLACES) {
        return refuse(4, 0);
    }
    let due = due_in_window(tasks, window);
    if let Some(t) = fault.first(Fault::LastOverload, overloads(&due)) {
        return refuse(6, t);
    }
    Ok(Table {
        tasks: tasks.to_vec(),
        window,
        places,
    })
}
