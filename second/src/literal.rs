//! The definition's formulas as they stand in its text, for tests only: the program itself has
//! plans in their place.

use crate::chip::Chip;
use crate::table::{Table, Task};

fn ceiling(a: i64, b: i64) -> i64 {
    assert!(a > -b);
    if a <= 0 {
        0
    } else {
        (a + b - 1) / b
    }
}

fn to_signed(task: &Task) -> (i64, i64, i64) {
    let (c, r, p) = (task.work, task.deadline, task.period);
    (c as i64, p as i64 - r as i64, p as i64)
}

pub fn literal_static(table: &Table) -> Vec<u64> {
    let w = table.window as i64;
    let last = table.places.len() - 1;
    let mut d = vec![0i64; table.places.len()];
    let least_x = table.tasks.iter().map(|t| t.period - t.deadline).min();
    d[last] = least_x.unwrap() as i64;
    for place in (0..last).rev() {
        let k = table.places[place] as i64;
        let mut sum = 0;
        for task in &table.tasks {
            let (c, x, p) = to_signed(task);
            sum += c * ceiling(w - x - k, p);
        }
        let later: i64 = d[place + 1..].iter().sum();
        d[place] = ((w - k) - sum - later).max(0);
    }
    d.iter().map(|&n| n as u64).collect()
}

pub fn literal_moving(chip: &Chip) -> Vec<u64> {
    let table = chip.table;
    let w = table.window as i64;
    let v = chip.offset() as i64;
    let start = chip.window_start() as i64;
    let here = table.places.iter().rposition(|&k| k as i64 <= v).unwrap();
    let mut y = vec![0i64; table.places.len()];
    for place in (here..table.places.len()).rev() {
        let k = if place == here {
            v
        } else {
            table.places[place] as i64
        };
        let mut work = 0;
        for (request, task) in chip.requests.iter().zip(&table.tasks) {
            let (c, x, p) = to_signed(task);
            let d = request.deadline as i64 - start;
            if d > k {
                work += request.left as i64;
            }
            work += c * ceiling(w - x - k.max(d), p);
        }
        let later: i64 = y[place + 1..].iter().sum();
        y[place] = ((w - k) - work - later).max(0);
    }
    y.iter().map(|&n| n as u64).collect()
}

/// Time of the place + its idle - (running sum - need), over Y and then D again and again.
pub fn literal_promise(chip: &Chip, need: u64) -> u64 {
    let table = chip.table;
    let start = chip.window_start();
    let mut sum = 0;
    for (&k, idle) in table.places.iter().zip(literal_moving(chip)) {
        let time = start + k.max(chip.offset());
        sum += idle;
        if sum >= need {
            return time + idle - (sum - need);
        }
    }
    let fixed = literal_static(table);
    for window in 1.. {
        for (&k, &idle) in table.places.iter().zip(&fixed) {
            let time = start + window * table.window + k;
            sum += idle;
            if sum >= need {
                return time + idle - (sum - need);
            }
        }
    }
    unreachable!()
}
