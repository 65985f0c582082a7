//! The two services that 000 compares with, slot by slot: background, where jobs get what periodic
//! work leaves idle, and polling, where a periodic server of its own asks for them. Jobs are
//! served oldest first; the response of a job is its finish less its arrival.

use crate::text::{Arrival, Task, Text};
use std::collections::VecDeque;

/// The polling server: so much work in each period.
#[derive(Clone, Copy, Debug, PartialEq, Eq)]
pub struct Server {
    pub capacity: u64,
    pub period: u64,
}

/// Periodic work under fixed priorities, the shortest critical delay first.
struct Periodic {
    tasks: Vec<Task>,
    left: Vec<u64>,
}

impl Periodic {
    fn new(tasks: &[Task]) -> Self {
        let mut tasks = tasks.to_vec();
        tasks.sort_by_key(|task| task.deadline);
        let left = vec![0; tasks.len()];
        Periodic { tasks, left }
    }

    fn release(&mut self, slot: u64) {
        for (task, left) in self.tasks.iter().zip(&mut self.left) {
            if slot.is_multiple_of(task.period.into()) {
                *left = task.work.into();
            }
        }
    }

    /// Does a unit of the first task that has work left; says whether there was one.
    fn work(&mut self) -> bool {
        let first = self.left.iter_mut().find(|left| **left > 0);
        first.map(|left| *left -= 1).is_some()
    }
}

/// The waiting jobs, oldest first, and the responses so far.
struct Queue<'a> {
    arrivals: std::iter::Peekable<std::slice::Iter<'a, Arrival>>,
    waiting: VecDeque<(u64, u64)>,
    responses: Vec<u64>,
}

impl<'a> Queue<'a> {
    fn new(arrivals: &'a [Arrival]) -> Self {
        Queue {
            arrivals: arrivals.iter().peekable(),
            waiting: VecDeque::new(),
            responses: Vec::new(),
        }
    }

    fn arrive(&mut self, slot: u64) {
        while let Some(job) = self.arrivals.next_if(|a| u64::from(a.slot) == slot) {
            self.waiting.push_back((slot, job.work.into()));
        }
    }

    fn work(&mut self, slot: u64) -> bool {
        let Some((arrived, left)) = self.waiting.front_mut() else {
            return false;
        };
        *left -= 1;
        if *left == 0 {
            self.responses.push(slot + 1 - *arrived);
            self.waiting.pop_front();
        }
        true
    }

    fn done(&mut self) -> bool {
        self.waiting.is_empty() && self.arrivals.peek().is_none()
    }
}

pub fn background(text: &Text) -> Vec<u64> {
    let mut periodic = Periodic::new(&text.tasks);
    let mut queue = Queue::new(&text.arrivals);
    for slot in 0u64.. {
        if queue.done() {
            break;
        }
        periodic.release(slot);
        queue.arrive(slot);
        if !periodic.work() {
            queue.work(slot);
        }
    }
    queue.responses
}

/// The server comes before every task. It finds the queue empty, or empties it, and sleeps to its
/// next period.
pub fn polling(text: &Text, server: Server) -> Vec<u64> {
    let mut periodic = Periodic::new(&text.tasks);
    let mut queue = Queue::new(&text.arrivals);
    let mut budget = 0;
    for slot in 0u64.. {
        if queue.done() {
            break;
        }
        periodic.release(slot);
        queue.arrive(slot);
        if slot.is_multiple_of(server.period) {
            budget = server.capacity;
        }
        if queue.waiting.is_empty() {
            budget = 0;
        }
        if budget > 0 && queue.work(slot) {
            budget -= 1;
        } else {
            periodic.work();
        }
    }
    queue.responses
}

/// Whether every task is done within its critical delay under a server that comes first: the
/// response of a task is the least time that holds its own work and all that comes before it.
fn keeps_deadlines(tasks: &[Task], server: Server) -> bool {
    let tasks = Periodic::new(tasks).tasks;
    tasks.iter().enumerate().all(|(rank, task)| {
        let mut response: u64 = 0;
        loop {
            let mut sum = u64::from(task.work);
            sum += response.max(1).div_ceil(server.period) * server.capacity;
            for before in &tasks[..rank] {
                sum += response.max(1).div_ceil(before.period.into()) * u64::from(before.work);
            }
            if sum > task.deadline.into() {
                return false;
            }
            if sum == response {
                return true;
            }
            response = sum;
        }
    })
}

/// The server whose period is the shortest critical delay, with the greatest capacity that the
/// tasks leave it.
pub fn server_for(tasks: &[Task]) -> Option<Server> {
    let period = tasks.iter().map(|task| u64::from(task.deadline)).min()?;
    let servers = (1..=period)
        .rev()
        .map(|capacity| Server { capacity, period });
    servers
        .into_iter()
        .find(|&server| keeps_deadlines(tasks, server))
}

#[cfg(test)]
mod tests {
    use super::*;
    use crate::text;

    fn case() -> Text {
        text::read("task 2 3 5\ntask 2 8 10\narrival 1 2\nrun 10\n").unwrap()
    }

    #[test]
    fn background_takes_what_is_idle() {
        // Periodic work has slots 0 to 3, 5 and 6; the job gets 4 and 7.
        assert_eq!(background(&case()), [7]);
    }

    #[test]
    fn polling_waits_for_its_period() {
        // The server finds nothing at 0 and comes back at 4.
        let server = Server {
            capacity: 1,
            period: 4,
        };
        assert_eq!(polling(&case(), server), [8]);
    }

    #[test]
    fn the_server_is_the_largest_that_fits() {
        // With 2 of 3 the second task would need 10 slots; with 1 of 3 it needs 5 of its 8.
        let tasks = text::read("task 1 3 5\ntask 2 8 10\nrun 0\n")
            .unwrap()
            .tasks;
        let server = server_for(&tasks).unwrap();
        assert_eq!((server.capacity, server.period), (1, 3));
        assert_eq!(server_for(&case().tasks), None);
    }
}
