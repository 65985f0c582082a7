//! 000's experiment: its eight periodic loads (table 3), sporadic jobs of its characteristics
//! (table 4), and the mean responses that it reports (table 5).

use crate::text::{Arrival, Task, Text};

const LOADS: usize = 8;

/// Period, critical delay, and the work at each load. Period 280 stands for the misprint 286.
const TABLE_3: [(u16, u16, [u16; LOADS]); 13] = [
    (84, 70, [1, 1, 2, 2, 4, 4, 4, 5]),
    (105, 98, [1, 2, 2, 3, 4, 5, 6, 7]),
    (112, 90, [1, 2, 3, 4, 4, 6, 5, 6]),
    (120, 115, [1, 2, 3, 4, 4, 5, 6, 8]),
    (140, 118, [1, 2, 3, 4, 6, 7, 6, 8]),
    (168, 152, [1, 2, 3, 5, 6, 9, 9, 11]),
    (210, 204, [1, 3, 4, 6, 7, 9, 11, 13]),
    (240, 240, [2, 4, 4, 8, 7, 12, 12, 16]),
    (280, 271, [2, 5, 6, 9, 9, 14, 14, 17]),
    (336, 320, [2, 6, 7, 11, 12, 18, 16, 19]),
    (420, 405, [3, 6, 8, 13, 16, 18, 20, 22]),
    (560, 553, [4, 9, 12, 17, 17, 26, 32, 35]),
    (840, 790, [6, 14, 17, 24, 38, 41, 52, 49]),
];

/// The load that 000 names, and its mean responses: background, polling and its own method.
pub const TABLE_5: [(&str, u32, u32, u32); LOADS] = [
    ("0.11", 65, 64, 60),
    ("0.21", 74, 129, 61),
    ("0.27", 81, 187, 61),
    ("0.39", 120, 265, 63),
    ("0.47", 133, 433, 67),
    ("0.62", 229, 3394, 86),
    ("0.66", 258, 5738, 92),
    ("0.78", 574, 9834, 180),
];

/// Table 4: so many jobs, and least, greatest and mean of their work and of the gaps before them.
const JOBS: usize = 25;
const WORK: Range = Range(1, 196, 54);
const GAP: Range = Range(107, 399, 262);

/// Long enough for every job to finish.
const SLOTS: u32 = 40_000;

struct Range(u32, u32, u32);

/// A small generator of even numbers below a bound; the same seed gives the same numbers.
struct Chance(u64);

impl Chance {
    /// Splitmix64.
    fn draw(&mut self) -> u64 {
        self.0 = self.0.wrapping_add(0x9e37_79b9_7f4a_7c15);
        let z = (self.0 ^ (self.0 >> 30)).wrapping_mul(0xbf58_476d_1ce4_e5b9);
        let z = (z ^ (z >> 27)).wrapping_mul(0x94d0_49bb_1331_11eb);
        z ^ (z >> 31)
    }

    /// From 0 up to 1.
    fn part(&mut self) -> f64 {
        (self.draw() >> 11) as f64 / (1u64 << 53) as f64
    }

    fn below(&mut self, bound: usize) -> usize {
        (self.draw() % bound as u64) as usize
    }
}

/// As many numbers as there are jobs, with exactly this least, greatest and mean. The draw leans
/// towards the least as far as the mean asks for; what is then missing goes to places at random.
fn numbers(chance: &mut Chance, range: &Range) -> Vec<u32> {
    let &Range(least, greatest, mean) = range;
    let width = f64::from(greatest - least);
    let lean = width / f64::from(mean - least) - 1.0;
    let drawn = (0..JOBS).map(|_| least + (width * chance.part().powf(lean)) as u32);
    let mut numbers: Vec<u32> = drawn.collect();
    let first = chance.below(JOBS);
    let second = (first + 1 + chance.below(JOBS - 1)) % JOBS;
    numbers[first] = least;
    numbers[second] = greatest;
    loop {
        let sum: u32 = numbers.iter().sum();
        let wanted = mean * JOBS as u32;
        let place = chance.below(JOBS);
        if sum == wanted {
            return numbers;
        }
        if place == first || place == second {
            continue;
        }
        if sum < wanted && numbers[place] < greatest {
            numbers[place] += 1;
        } else if sum > wanted && numbers[place] > least {
            numbers[place] -= 1;
        }
    }
}

fn tasks(load: usize) -> Vec<Task> {
    let task = |&(period, deadline, work): &(u16, u16, [u16; LOADS])| Task {
        work: work[load],
        deadline,
        period,
        name: None,
    };
    TABLE_3.iter().map(task).collect()
}

fn arrivals(set: u64) -> Vec<Arrival> {
    let mut chance = Chance(set);
    let work = numbers(&mut chance, &WORK);
    let gaps = numbers(&mut chance, &GAP);
    let mut slot = 0;
    let mut arrivals = Vec::new();
    for (work, gap) in work.into_iter().zip(gaps) {
        slot += gap;
        arrivals.push(Arrival {
            slot,
            work: work as u16,
            latest: None,
            name: None,
        });
    }
    arrivals
}

/// The tasks of a load, from 0, with the jobs of a set.
pub fn case(load: usize, set: u64) -> Text {
    Text {
        tasks: tasks(load),
        arrivals: arrivals(set),
        slots: SLOTS,
    }
}

#[cfg(test)]
mod tests {
    use super::*;

    #[test]
    fn the_jobs_have_the_stated_characteristics() {
        for set in 1..=20 {
            let mut chance = Chance(set);
            for range in [WORK, GAP] {
                let numbers = numbers(&mut chance, &range);
                assert_eq!(numbers.iter().min(), Some(&range.0));
                assert_eq!(numbers.iter().max(), Some(&range.1));
                assert_eq!(numbers.iter().sum::<u32>(), range.2 * 25);
            }
        }
    }

    #[test]
    fn the_loads_are_those_that_000_names() {
        for (load, (name, ..)) in TABLE_5.iter().enumerate() {
            let share = |task: &Task| f64::from(task.work) / f64::from(task.period);
            let sum: f64 = tasks(load).iter().map(share).sum();
            let named: f64 = name.parse().unwrap();
            assert!((sum - named).abs() < 0.015, "{name}: {sum}");
        }
    }
}
