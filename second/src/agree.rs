//! Random tables and runs on which the plans are compared with the definition's formulas, the
//! quick search with the plain one, and earliest deadline first with every possible choice. For
//! tests only.

use crate::admit::{admit, earliest_end, earliest_end_plain, idle_of_a_window, plan_exists};
use crate::chip::{Chip, Request, Who};
use crate::faults::Fault;
use crate::latest::{moving_vector, static_vector};
use crate::literal::{literal_moving, literal_promise, literal_static};
use crate::rng::Rng;
use crate::table::{check, Table, Task};

fn random_tasks(rng: &mut Rng) -> Vec<Task> {
    let base: u64 = *rng.pick(&[4, 6, 8, 12, 18, 20, 24, 30, 36, 60]);
    let divisors: Vec<u64> = (2..=base).filter(|n| base.is_multiple_of(*n)).collect();
    let count = rng.within(1, 6);
    let mut tasks = Vec::new();
    for _ in 0..count {
        let period = *rng.pick(&divisors);
        let work = rng.within(1, (period / count).max(1));
        let deadline = if rng.percent(30) {
            period
        } else {
            rng.within(work, period)
        };
        tasks.push(Task {
            work,
            deadline,
            period,
        });
    }
    tasks
}

fn random_tables(seed: u64, count: usize) -> Vec<Table> {
    let mut rng = Rng::new(seed);
    let mut tables = Vec::new();
    while tables.len() < count {
        tables.extend(check(&random_tasks(&mut rng), Fault::None));
    }
    tables
}

/// Runs a table with random arrivals and hands over each state just before a slot.
fn random_run(table: &Table, rng: &mut Rng, slots: u64, mut look: impl FnMut(&Chip)) {
    let mut chip = Chip::power_on(table, Fault::None);
    let share = *rng.pick(&[0, 5, 20, 60]);
    let most = *rng.pick(&[1, 3, 10]);
    for _ in 0..slots {
        while rng.percent(share) {
            let _ = admit(&mut chip, rng.within(1, most), None);
        }
        look(&chip);
        chip.step();
    }
}

#[test]
fn vectors_equal_the_formulas() {
    let mut rng = Rng::new(1);
    for table in random_tables(2, 1500) {
        let fixed = static_vector(&table, Fault::None);
        assert_eq!(fixed, literal_static(&table), "{table:?}");
        let slots = 2 * table.window + 5;
        random_run(&table, &mut rng, slots, |chip| {
            let moving = moving_vector(chip);
            assert_eq!(moving, literal_moving(chip), "{chip:?}");
            let f = fixed.iter().sum::<u64>();
            assert_eq!(f, idle_of_a_window(chip));
            let gone = chip.tally_jobs + chip.tally_idle;
            assert_eq!(f - gone, moving.iter().sum::<u64>(), "{chip:?}");
        });
    }
}

#[test]
fn promise_equals_the_formula_and_the_plain_search() {
    let mut rng = Rng::new(3);
    let mut asked = 0;
    for table in random_tables(4, 400) {
        if idle_of_a_window(&Chip::power_on(&table, Fault::None)) == 0 {
            continue;
        }
        let mut works = Rng::new(table.window);
        random_run(&table, &mut rng, table.window + 3, |chip| {
            let waiting = chip.jobs.iter().map(|j| j.left).sum::<u64>();
            let need = waiting + works.within(1, 1 + 2 * table.window / 3);
            let end = earliest_end(chip, need);
            assert_eq!(end, literal_promise(chip, need), "{chip:?} {need}");
            assert_eq!(end, earliest_end_plain(chip, need), "{chip:?} {need}");
            asked += 1;
        });
    }
    assert!(asked > 5000, "{asked}");
}

/// Tables with wide windows, too slow for the plain search: the formula alone decides.
#[test]
fn wide_tables_equal_the_formulas() {
    let of = |list: &[(u64, u64, u64)]| {
        let task = |&(work, deadline, period): &(u64, u64, u64)| Task {
            work,
            deadline,
            period,
        };
        check(&list.iter().map(task).collect::<Vec<_>>(), Fault::None).unwrap()
    };
    let tables = [
        of(&[(5, 25, 30), (10, 40, 50), (20, 55, 75)]),
        of(&[(1, 2, 2), (1, 2046, 2046)]),
        of(&[(2, 3000, 3000), (9993, 10_000, 10_000)]),
        of(&[
            (7, 110, 120),
            (31, 290, 300),
            (90, 480, 500),
            (99, 625, 625),
        ]),
        of(&[
            (9, 100, 120),
            (14, 230, 240),
            (60, 1000, 1000),
            (600, 9000, 10_000),
        ]),
    ];
    let mut rng = Rng::new(11);
    for table in tables {
        assert_eq!(static_vector(&table, Fault::None), literal_static(&table));
        let slots = table.window + 50;
        let mut count = 0;
        random_run(&table, &mut rng, slots, |chip| {
            count += 1;
            if count % (1 + slots / 150) == 0 {
                assert_eq!(moving_vector(chip), literal_moving(chip));
                for need in [1, 2, 7, 60, 500, 2000, 30_000] {
                    assert_eq!(earliest_end(chip, need), literal_promise(chip, need));
                }
            }
        });
    }
}

/// Every slot is asked anew, with no choice kept and no memory of releases.
fn plan_exists_slowly(chip: &Chip, need: u64, end: u64, stop: u64) -> bool {
    let mut open: Vec<Request> = chip.requests.clone();
    open.push(Request {
        left: need,
        release: chip.now,
        deadline: end,
    });
    for slot in chip.now..stop {
        if slot > chip.now {
            for task in &chip.table.tasks {
                if slot % task.period == 0 {
                    open.push(Request {
                        left: task.work,
                        release: slot,
                        deadline: slot + task.deadline,
                    });
                }
            }
        }
        open.retain(|r| r.left > 0);
        if open.iter().any(|r| r.deadline <= slot) {
            return false;
        }
        if let Some(runs) = open.iter_mut().min_by_key(|r| r.deadline) {
            runs.left -= 1;
        }
    }
    open.iter().all(|r| r.left == 0)
}

#[test]
fn keeping_the_choice_changes_no_verdict() {
    let mut rng = Rng::new(5);
    let mut verdicts = [0, 0];
    for table in random_tables(6, 300) {
        let mut numbers = Rng::new(table.window);
        random_run(&table, &mut rng, table.window, |chip| {
            let need = numbers.within(1, table.window);
            let end = chip.now + numbers.within(1, table.window);
            let stop = end.div_ceil(table.window) * table.window;
            let quick = plan_exists(&table.tasks, &chip.requests, chip.now, need, end, stop);
            let slow = plan_exists_slowly(chip, need, end, stop);
            assert_eq!(quick, slow, "{chip:?} {need} {end}");
            verdicts[usize::from(quick)] += 1;
        });
    }
    assert!(verdicts[0] > 500 && verdicts[1] > 500, "{verdicts:?}");
}

/// Whether any plan at all exists, by trying every choice in every slot.
fn some_plan(tasks: &[Task], open: &[Request], slot: u64, stop: u64) -> bool {
    if open.iter().any(|r| r.left > 0 && r.deadline <= slot) {
        return false;
    }
    if slot == stop {
        return open.iter().all(|r| r.left == 0);
    }
    // Idling where something is open helps no plan, so only slots with nothing open idle.
    let choices: Vec<usize> = (0..open.len()).filter(|&i| open[i].left > 0).collect();
    let mut nexts: Vec<Vec<Request>> = Vec::new();
    for &choice in &choices {
        let mut next = open.to_vec();
        next[choice].left -= 1;
        nexts.push(next);
    }
    if choices.is_empty() {
        nexts.push(open.to_vec());
    }
    nexts.into_iter().any(|mut next| {
        for task in tasks {
            if (slot + 1).is_multiple_of(task.period) && slot + 1 < stop {
                next.push(Request {
                    left: task.work,
                    release: slot + 1,
                    deadline: slot + 1 + task.deadline,
                });
            }
        }
        some_plan(tasks, &next, slot + 1, stop)
    })
}

#[test]
fn earliest_deadline_first_finds_a_plan_if_any_choice_does() {
    let mut rng = Rng::new(7);
    let tables = random_tables(8, 400);
    for table in tables.iter().filter(|t| t.window <= 8) {
        let mut numbers = Rng::new(table.window);
        random_run(table, &mut rng, 2 * table.window, |chip| {
            let need = numbers.within(1, 4);
            let end = chip.now + numbers.within(1, 8);
            let stop = end.div_ceil(table.window) * table.window;
            let mut open = chip.requests.clone();
            open.push(Request {
                left: need,
                release: chip.now,
                deadline: end,
            });
            let any = some_plan(&table.tasks, &open, chip.now, stop);
            let edf = plan_exists(&table.tasks, &chip.requests, chip.now, need, end, stop);
            assert_eq!(any, edf, "{chip:?} {need} {end}");
        });
    }
}

#[test]
fn jobs_end_at_their_promise_and_no_deadline_passes() {
    let mut rng = Rng::new(9);
    let mut ended = 0;
    for table in random_tables(10, 500) {
        let mut chip = Chip::power_on(&table, Fault::None);
        let share = *rng.pick(&[5, 20, 60]);
        let most = *rng.pick(&[1, 3, 10]);
        for _ in 0..4 * table.window {
            while rng.percent(share) {
                let _ = admit(&mut chip, rng.within(1, most), None);
            }
            let open = chip.requests.iter().filter(|r| r.left > 0);
            assert!(open.clone().all(|r| r.deadline > chip.now), "{chip:?}");
            let jobs = chip.jobs.len();
            if let Who::Job(promise) = chip.step() {
                if chip.jobs.len() < jobs {
                    assert_eq!(chip.now, promise);
                    ended += 1;
                }
            }
        }
    }
    assert!(ended > 3000, "{ended}");
}
