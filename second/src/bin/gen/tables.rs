//! Random tables: those meant to be accepted, with few tasks or many, in short windows or long
//! ones, those filled to the last slot, and those meant to meet refusals 2, 3, 4 and 6.

use crate::encode::NewTask;
use second::faults::Fault;
use second::rng::Rng;
use second::table::{check, Table, Task};

const SMALL: [u64; 22] = [
    4, 6, 8, 10, 12, 16, 18, 20, 24, 30, 36, 40, 48, 60, 72, 84, 90, 96, 100, 108, 120, 150,
];
const MIDDLE: [u64; 10] = [180, 200, 210, 240, 252, 300, 336, 360, 420, 480];
const LARGE: [u64; 6] = [1000, 1200, 2400, 5000, 7200, 9240];
const LONGEST: [u64; 10] = [
    10_000, 10_080, 12_000, 12_600, 15_120, 18_000, 20_160, 25_200, 27_720, 30_000,
];
/// From here on a window counts as long.
pub const LONG: u64 = 10_000;
/// From here on a table has many tasks.
const MANY: u64 = 9;

pub fn records(tasks: &[NewTask]) -> Vec<Task> {
    let record = |&NewTask(c, r, p): &NewTask| Task {
        work: c.into(),
        deadline: r.into(),
        period: p.into(),
    };
    tasks.iter().map(record).collect()
}

pub fn accepted(tasks: &[NewTask]) -> Option<Table> {
    check(&records(tasks), Fault::None).ok()
}

fn base(rng: &mut Rng) -> u64 {
    match rng.within(0, 99) {
        0..=64 => *rng.pick(&SMALL),
        65..=91 => *rng.pick(&MIDDLE),
        92..=95 => *rng.pick(&LONGEST),
        _ => *rng.pick(&LARGE),
    }
}

fn shuffle(rng: &mut Rng, tasks: &mut [NewTask]) {
    for i in (1..tasks.len()).rev() {
        tasks.swap(i, rng.within(0, i as u64) as usize);
    }
}

/// Tasks whose work in a window of `base` slots is at most `room`, each with its deadline at its
/// period.
fn loaded(rng: &mut Rng, base: u64, mut room: u64, count: u64) -> Vec<NewTask> {
    let most = base.min(10_000);
    // In a long window short periods would need too many places.
    let periods: Vec<u64> = (base.div_ceil(500)..=most)
        .filter(|n| base.is_multiple_of(*n))
        .collect();
    let mut tasks = Vec::new();
    for still in (1..=count).rev() {
        let period = *rng.pick(&periods);
        let each = base / period;
        let share = if still == 1 || rng.percent(30) {
            room
        } else {
            2 * room / still
        };
        let highest = (share.min(room) / each).min(period);
        if highest == 0 {
            continue;
        }
        let work = rng.within(1, highest);
        room -= work * each;
        tasks.push(NewTask(work as u16, period as u16, period as u16));
    }
    if tasks.is_empty() {
        let period = *periods.last().unwrap_or(&1);
        tasks.push(NewTask(1, period as u16, period as u16));
    }
    shuffle(rng, &mut tasks);
    tasks
}

fn count(rng: &mut Rng) -> u64 {
    if rng.percent(70) {
        rng.within(1, 5)
    } else {
        rng.within(6, 16)
    }
}

/// Draws deadlines below the periods; `share` is how many of a hundred tasks get one.
fn tighten(rng: &mut Rng, tasks: &[NewTask], share: u64) -> Vec<NewTask> {
    let mut tight = tasks.to_vec();
    for NewTask(c, r, p) in &mut tight {
        if rng.percent(share) {
            let low = if rng.percent(50) {
                *c
            } else {
                (*c).max(*p - *p / 4)
            };
            *r = rng.within(low.into(), (*p).into()) as u16;
        }
    }
    tight
}

/// At most `wanted` tasks in a window of `base` slots or a part of it, made acceptable: the
/// deadlines are drawn again, ever fewer of them, until they are; at worst they are the periods.
/// Nothing if fewer than `least` find room.
fn acceptable(rng: &mut Rng, base: u64, wanted: u64, least: u64) -> Option<Vec<NewTask>> {
    let load = rng.within(20, 100);
    let tasks = loaded(rng, base, (base * load / 100).max(1), wanted);
    if (tasks.len() as u64) < least {
        return None;
    }
    let shares = [90, 90, 70, 50, 30, 15, 0].into_iter();
    let mut drawn = shares.map(|share| tighten(rng, &tasks, share));
    drawn.find(|tight| accepted(tight).is_some())
}

/// A table that is accepted.
pub fn good(rng: &mut Rng) -> Vec<NewTask> {
    loop {
        let (base, wanted) = (base(rng), count(rng));
        if let Some(tasks) = acceptable(rng, base, wanted, 1) {
            return tasks;
        }
    }
}

/// A table of nine to sixteen tasks that is accepted.
pub fn many(rng: &mut Rng) -> Vec<NewTask> {
    loop {
        let base = match rng.within(0, 9) {
            0..=5 => *rng.pick(&MIDDLE),
            6..=8 => *rng.pick(&LARGE),
            _ => *rng.pick(&LONGEST),
        };
        let wanted = rng.within(MANY, 16);
        if let Some(tasks) = acceptable(rng, base, wanted, MANY) {
            return tasks;
        }
    }
}

/// A table of a long window that is accepted.
pub fn wide(rng: &mut Rng) -> Vec<NewTask> {
    loop {
        let base = *rng.pick(&LONGEST);
        let wanted = if rng.percent(70) {
            rng.within(2, 6)
        } else {
            rng.within(MANY, 16)
        };
        let long = |tasks: &Vec<NewTask>| accepted(tasks).is_some_and(|t| t.window >= LONG);
        if let Some(tasks) = acceptable(rng, base, wanted, 1).filter(long) {
            return tasks;
        }
    }
}

/// A table with no idle slot: the last task takes what the others leave.
pub fn full(rng: &mut Rng) -> Vec<NewTask> {
    let base = *rng.pick(&SMALL);
    let wanted = rng.within(0, 4);
    let mut tasks = if wanted == 0 {
        Vec::new()
    } else {
        loaded(rng, base, base - 1, wanted)
    };
    let each = |t: &NewTask| u64::from(t.0) * (base / u64::from(t.2));
    let taken: u64 = tasks.iter().map(each).sum();
    let left = (base - taken) as u16;
    tasks.push(NewTask(left, base as u16, base as u16));
    shuffle(rng, &mut tasks);
    let tight = tighten(rng, &tasks, 40);
    if accepted(&tight).is_some() {
        tight
    } else {
        tasks
    }
}

/// Heavy load and short deadlines: mostly refused by 6.
pub fn tight(rng: &mut Rng) -> Vec<NewTask> {
    let base = base(rng);
    let wanted = count(rng);
    let load = rng.within(90, 130);
    let tasks = loaded(rng, base, base * load / 100, wanted);
    tighten(rng, &tasks, 95)
}

/// One or more tasks beyond their limits.
pub fn beyond_limits(rng: &mut Rng) -> Vec<NewTask> {
    let mut tasks = good(rng);
    for _ in 0..rng.within(1, 2) {
        let index = rng.within(0, tasks.len() as u64 - 1) as usize;
        let NewTask(c, r, p) = tasks[index];
        tasks[index] = *rng.pick(&[
            NewTask(0, r, p),
            NewTask(r.saturating_add(1), r, p),
            NewTask(c, p.saturating_add(1), p),
            NewTask(c, r, 10_001),
            NewTask(c, r, 0),
            NewTask(c, c, 65_535),
            NewTask(10_001, 10_001, 10_001),
            NewTask(c, 0, p),
        ]);
    }
    tasks
}

/// Periods without a common multiple up to 30,000, most of the time.
pub fn long_window(rng: &mut Rng) -> Vec<NewTask> {
    let mut tasks = Vec::new();
    for _ in 0..rng.within(2, 6) {
        let longest = *rng.pick(&[60, 300, 10_000]);
        let period = rng.within(2, longest) as u16;
        let r = rng.within((u64::from(period) / 2).max(1), period.into()) as u16;
        tasks.push(NewTask(1, r, period));
    }
    tasks
}

/// A short period against a long one, so that the places come out near or above 1,024.
pub fn many_places(rng: &mut Rng) -> Vec<NewTask> {
    let short = rng.within(2, 9);
    let times = rng.within(1015, 1035);
    let long = short * times;
    let r = long - rng.within(0, short);
    let first = NewTask(1, rng.within(1, short) as u16, short as u16);
    let mut tasks = vec![first, NewTask(1, r as u16, long as u16)];
    if rng.percent(30) {
        let r = long - rng.within(0, 3 * short);
        tasks.push(NewTask(1, r as u16, long as u16));
    }
    shuffle(rng, &mut tasks);
    tasks
}
