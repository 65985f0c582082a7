//! Random arrivals for a table. Where the table is accepted the chip is run along, so that a
//! latest finish can be drawn close to the promise and both its sides come up.

use crate::encode::NewArrival;
use crate::tables::LONG;
use second::admit::{admit, earliest_end, idle_of_a_window};
use second::chip::Chip;
use second::faults::Fault;
use second::rng::Rng;
use second::table::Table;

/// A few slots, some of them about the end of the long window.
fn few_slots_asked(rng: &mut Rng, slots: u32, window: u64) -> Vec<u32> {
    let last = u64::from(slots.saturating_sub(1));
    let mut asked = Vec::new();
    for _ in 0..rng.within(1, 4) {
        let about = rng.within(window - 20, window + 20);
        let slot = if rng.percent(50) {
            about.min(last)
        } else {
            rng.within(0, last)
        };
        asked.push(slot as u32);
    }
    asked.sort_unstable();
    asked
}

fn slots_asked(rng: &mut Rng, slots: u32) -> Vec<u32> {
    let last = u64::from(slots.saturating_sub(1));
    let mut asked = Vec::new();
    match rng.within(0, 9) {
        0..=3 => {
            for _ in 0..rng.within(1, 25) {
                asked.push(rng.within(0, last) as u32);
            }
        }
        4..=6 => {
            for _ in 0..rng.within(1, 4) {
                let slot = rng.within(0, last) as u32;
                asked.extend(vec![slot; rng.within(2, 12) as usize]);
            }
        }
        7 => {
            for _ in 0..rng.within(30, 120) {
                asked.push(rng.within(0, last) as u32);
            }
        }
        8 => asked.extend(0..slots.min(40)),
        _ => {}
    }
    if rng.percent(15) {
        asked.extend([slots, slots + 1, slots + 1]);
    }
    if rng.percent(3) {
        asked.push(u32::MAX);
    }
    asked.sort_unstable();
    asked
}

fn work(rng: &mut Rng, idle: u64) -> u16 {
    let few = idle.clamp(1, 400);
    let work = match rng.within(0, 39) {
        0 => 0,
        1 => 30_001,
        2 => rng.within(30_001, 65_535),
        3 => 30_000,
        4 => rng.within(1, 30_000),
        5..=9 => rng.within(1, 3 * few),
        10..=19 => rng.within(1, few),
        _ => rng.within(1, (few / 4).max(2)),
    };
    work as u16
}

fn latest(rng: &mut Rng, chip: &Chip, work: u16) -> Option<u32> {
    if rng.percent(45) {
        return None;
    }
    if idle_of_a_window(chip) == 0 || work == 0 || rng.percent(10) {
        return Some(rng.within(0, chip.now + 50) as u32);
    }
    let waiting = chip.jobs.iter().map(|j| j.left).sum::<u64>();
    let end = earliest_end(chip, waiting + u64::from(work));
    let near = match rng.within(0, 5) {
        0 => end,
        1 => end - 1,
        2 => end + 1,
        3 => end + rng.within(0, 20),
        4 => end.saturating_sub(rng.within(0, 20)),
        _ => rng.within(chip.now, end + 5),
    };
    Some(u32::try_from(near).unwrap_or(u32::MAX))
}

pub fn along(rng: &mut Rng, table: &Table, slots: u32) -> Vec<NewArrival> {
    let mut chip = Chip::power_on(table, Fault::None);
    let idle = idle_of_a_window(&chip);
    let asked = if table.window >= LONG {
        few_slots_asked(rng, slots, table.window)
    } else {
        slots_asked(rng, slots)
    };
    let mut arrivals = Vec::new();
    for slot in asked {
        while slot < slots && chip.now < u64::from(slot) {
            chip.step();
        }
        let work = work(rng, idle);
        let latest = latest(rng, &chip, work);
        if slot < slots {
            let _ = admit(&mut chip, work.into(), latest.map(u64::from));
        }
        arrivals.push(NewArrival { slot, work, latest });
    }
    arrivals
}

pub fn blind(rng: &mut Rng, slots: u32) -> Vec<NewArrival> {
    let mut arrivals = Vec::new();
    for slot in slots_asked(rng, slots.min(30)) {
        arrivals.push(NewArrival {
            slot,
            work: rng.within(0, 20) as u16,
            latest: rng
                .percent(40)
                .then(|| slot.saturating_add(rng.within(0, 30) as u32)),
        });
    }
    arrivals
}
