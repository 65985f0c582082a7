//! Admission. The promise is found by looking for a plan: an end e is possible if periodic work
//! up to the end of e's window and all jobs by e can be done, and earliest deadline first finds
//! such a plan whenever there is one.

use crate::chip::{Chip, Job, Request};
use crate::faults::Fault;
use crate::table::Task;
use crate::{refuse, Refusal};

/// H, the highest slot of the clock.
pub const HIGHEST_SLOT: u64 = 1 << 40;
pub const MOST_WORK: u64 = 30_000;
pub const MOST_JOBS: usize = 8;

/// Whether a plan from `start` meets every periodic deadline up to `stop` and does `need` units
/// of jobs by `end`. Tried slot by slot, earliest deadline first; between a release and the next
/// the choice stays until its work is done.
pub fn plan_exists(
    tasks: &[Task],
    requests: &[Request],
    start: u64,
    need: u64,
    end: u64,
    stop: u64,
) -> bool {
    let mut requests = requests.to_vec();
    // The jobs are all due by the same end, so one pile stands for them.
    let mut jobs = Request {
        left: need,
        release: start,
        deadline: end,
    };
    let next_release = |requests: &[Request]| {
        let pairs = requests.iter().zip(tasks);
        pairs.map(|(r, t)| r.release + t.period).min()
    };
    let mut release_at = next_release(&requests);
    let mut chosen: Option<usize> = None;
    let mut choose = true;
    for slot in start..stop {
        if Some(slot) == release_at {
            for (request, task) in requests.iter_mut().zip(tasks) {
                if request.release + task.period == slot {
                    if request.left > 0 {
                        return false;
                    }
                    *request = Request {
                        left: task.work,
                        release: slot,
                        deadline: slot + task.deadline,
                    };
                }
            }
            release_at = next_release(&requests);
            choose = true;
        }
        if choose {
            let all = requests.iter().chain(std::iter::once(&jobs)).enumerate();
            let open = all.filter(|(_, r)| r.left > 0);
            chosen = open.min_by_key(|(_, r)| r.deadline).map(|(i, _)| i);
            choose = false;
        }
        if let Some(index) = chosen {
            let runs = requests.get_mut(index).unwrap_or(&mut jobs);
            if runs.deadline <= slot {
                return false;
            }
            runs.left -= 1;
            choose = runs.left == 0;
        }
    }
    jobs.left == 0 && requests.iter().all(|r| r.left == 0)
}

/// The window's end that belongs to an end: an end on a window's start belongs to the window
/// before it.
fn window_end(end: u64, window: u64) -> u64 {
    end.div_ceil(window) * window
}

/// The earliest end for `need` units by trying one end after the other. Needs an idle slot in a
/// window.
pub fn earliest_end_plain(chip: &Chip, need: u64) -> u64 {
    let table = chip.table;
    let mut end = chip.now + 1;
    loop {
        let stop = window_end(end, table.window);
        if plan_exists(&table.tasks, &chip.requests, chip.now, need, end, stop) {
            return end;
        }
        end += 1;
    }
}

/// The idle slots of a window: what its requests leave over.
pub fn idle_of_a_window(chip: &Chip) -> u64 {
    let window = chip.table.window;
    let tasks = chip.table.tasks.iter();
    window - tasks.map(|t| window / t.period * t.work).sum::<u64>()
}

/// The slots from now to the window's end that periodic work leaves over.
fn idle_left(chip: &Chip) -> u64 {
    let stop = chip.window_start() + chip.table.window;
    let mut work = 0;
    for (request, task) in chip.requests.iter().zip(&chip.table.tasks) {
        work += request.left;
        work += (stop - request.release) / task.period * task.work - task.work;
    }
    stop - chip.now - work
}

/// The earliest end within the window that starts or is under way at `start`, where `need` units
/// fit into that window. If some end is possible, so is the next one in the same window, by the
/// very same plan; so the ends can be halved.
fn earliest_end_in_window(
    tasks: &[Task],
    requests: &[Request],
    start: u64,
    need: u64,
    stop: u64,
) -> u64 {
    let mut impossible = start + need - 1;
    let mut possible = stop;
    while possible - impossible > 1 {
        let end = impossible + (possible - impossible) / 2;
        if plan_exists(tasks, requests, start, need, end, stop) {
            possible = end;
        } else {
            impossible = end;
        }
    }
    possible
}

/// The earliest end for `need` units, need and idle slots of a window at least 1, skipping whole
/// windows.
///
/// Why the skip is right: a request is released and due in the same window, so no periodic work
/// crosses a window's start and every plan does exactly the window's own periodic work in it. So
/// up to the present window's end a plan has exactly `idle_left` slots for jobs, and in each
/// later window `idle_of_a_window`, neither more nor less. If the need is more than those windows
/// hold, the end is beyond them; a plan that fills them loses nothing, and leaves the rest of the
/// need at a window's start with all requests fresh.
pub fn earliest_end(chip: &Chip, need: u64) -> u64 {
    let table = chip.table;
    let stop = chip.window_start() + table.window;
    let here = idle_left(chip);
    if need <= here {
        return earliest_end_in_window(&table.tasks, &chip.requests, chip.now, need, stop);
    }
    let each = idle_of_a_window(chip);
    let skipped = (need - here - 1) / each;
    let rest = need - here - skipped * each;
    let fresh = Chip::power_on(table, chip.fault);
    let end = earliest_end_in_window(&table.tasks, &fresh.requests, 0, rest, table.window);
    stop + chip.fault.skipped(skipped) * table.window + end
}

/// Asks 10 to 14 in order; on acceptance the job waits last and its promise is given.
pub fn admit(chip: &mut Chip, work: u64, latest: Option<u64>) -> Result<u64, Refusal> {
    let most_jobs = MOST_JOBS - usize::from(chip.fault == Fault::SevenJobs);
    if work == 0 || work > MOST_WORK {
        return refuse(10, 0);
    }
    if chip.jobs.len() >= most_jobs {
        return refuse(11, 0);
    }
    if idle_of_a_window(chip) == 0 {
        return refuse(12, 0);
    }
    let need = chip.jobs.iter().map(|j| j.left).sum::<u64>() + work;
    let promise = chip.fault.promise(earliest_end(chip, need));
    if promise > HIGHEST_SLOT {
        return refuse(13, 0);
    }
    if latest.is_some_and(|latest| chip.fault.too_late(promise, latest)) {
        return refuse(14, 0);
    }
    chip.jobs.push_back(Job {
        left: work,
        promise,
    });
    Ok(promise)
}
