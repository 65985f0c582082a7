//! The running state and one slot of it: the earliest deadline runs, one unit a slot, then the
//! clock moves and releases enter.

use crate::faults::Fault;
use crate::table::Table;
use std::collections::VecDeque;

#[derive(Clone, Copy, Debug, PartialEq, Eq)]
pub struct Request {
    pub left: u64,
    pub release: u64,
    pub deadline: u64,
}

#[derive(Clone, Copy, Debug, PartialEq, Eq)]
pub struct Job {
    pub left: u64,
    pub promise: u64,
}

/// What a slot went to: a task by number from 1, a job by promise, or nothing.
#[derive(Clone, Copy, Debug, PartialEq, Eq)]
pub enum Who {
    Idle,
    Task(usize),
    Job(u64),
}

#[derive(Clone, Debug)]
pub struct Chip<'t> {
    pub table: &'t Table,
    pub fault: Fault,
    pub now: u64,
    /// One per task, the latest released.
    pub requests: Vec<Request>,
    /// Oldest first.
    pub jobs: VecDeque<Job>,
    /// A: slots of the present window given to jobs.
    pub tally_jobs: u64,
    /// I: idle slots of the present window.
    pub tally_idle: u64,
}

impl<'t> Chip<'t> {
    pub fn power_on(table: &'t Table, fault: Fault) -> Self {
        let mut chip = Chip {
            table,
            fault,
            now: 0,
            requests: Vec::new(),
            jobs: VecDeque::new(),
            tally_jobs: 0,
            tally_idle: 0,
        };
        for task in &table.tasks {
            chip.requests.push(Request {
                left: task.work,
                release: 0,
                deadline: task.deadline,
            });
        }
        chip
    }

    pub fn offset(&self) -> u64 {
        self.now % self.table.window
    }

    pub fn window_start(&self) -> u64 {
        self.now - self.offset()
    }

    pub fn step(&mut self) -> Who {
        let who = self.run_slot();
        self.now += 1;
        let (offset, start) = (self.offset(), self.window_start());
        for (request, task) in self.requests.iter_mut().zip(&self.table.tasks) {
            if self.now == request.release + task.period {
                *request = Request {
                    left: self.fault.released(task.work, offset),
                    release: self.now,
                    deadline: self.now + task.deadline,
                };
            } else if self.fault.comes_late(offset) && request.release == start {
                request.left = task.work;
            }
        }
        if offset == 0 && self.fault != Fault::TallyKeep {
            self.tally_jobs = 0;
            self.tally_idle = 0;
        }
        who
    }

    /// Gives slot now to the earliest deadline: the job before a task, a low task number before a
    /// high one.
    fn run_slot(&mut self) -> Who {
        let job = self.jobs.front().map(|j| (j.promise, 0));
        let tasks = self.requests.iter().enumerate();
        let tasks = tasks.filter(|(_, r)| r.left > 0);
        let tasks = tasks.map(|(i, r)| (r.deadline, i + 1));
        let waiting = job.into_iter().chain(tasks);
        match waiting.min_by_key(|&(deadline, number)| (deadline, self.fault.rank(number))) {
            None => {
                self.tally_idle += 1;
                Who::Idle
            }
            Some((promise, 0)) => {
                self.tally_jobs += 1;
                self.tally_idle += self.fault.idle_of_a_job_slot();
                self.jobs[0].left -= 1;
                if self.jobs[0].left == 0 {
                    self.fault.leave(&mut self.jobs);
                }
                Who::Job(promise)
            }
            Some((_, number)) => {
                self.requests[number - 1].left -= 1;
                Who::Task(number)
            }
        }
    }
}
