//! The idle vectors, read off the latest plan: every unit of periodic work lies as late as its
//! deadline lets it, and what is left of the window is idle. An entry is the number of idle slots
//! from its place's time up to the next place.
//!
//! Why this is the definition's number. Slots are filled from the window's end backwards; a pile
//! holds the units due above the slot that have no slot yet, and a slot is idle exactly if the
//! pile is empty. The pile only grows at a deadline, and every deadline is a place. So between
//! two places the pile first empties, slot by slot, and what then remains down to the place k is
//! idle. If it empties, everything due above k has a slot in k to W, and the entry is (W - k)
//! less that work and less the idle slots at later places. If it does not empty, that difference
//! is 0 or less and the entry is 0. In both cases the idle slots lie directly after k. Releases
//! need no look: in a feasible state no unit falls below its release.

use crate::chip::Chip;
use crate::faults::Fault;
use crate::table::{due_in_window, Table};

/// For each offset below W whether the latest plan leaves it idle; below `from` nothing is
/// planned and nothing idle.
fn idle_slots(due: &[u64], from: u64) -> Vec<bool> {
    let window = due.len() - 1;
    let mut idle = vec![false; window];
    let mut pile = 0;
    for slot in (from as usize..window).rev() {
        pile += due[slot + 1];
        if pile > 0 {
            pile -= 1;
        } else {
            idle[slot] = true;
        }
    }
    idle
}

/// The idle slots from each place up to the next.
fn count_by_place(places: &[u64], idle: &[bool]) -> Vec<u64> {
    let mut entries = vec![0; places.len()];
    let mut place = 0;
    for (slot, &is_idle) in idle.iter().enumerate() {
        while place + 1 < places.len() && places[place + 1] <= slot as u64 {
            place += 1;
        }
        entries[place] += u64::from(is_idle);
    }
    entries
}

/// D.
pub fn static_vector(table: &Table, fault: Fault) -> Vec<u64> {
    let mut due = due_in_window(&table.tasks, table.window);
    fault.move_due(&mut due, &table.places);
    count_by_place(&table.places, &idle_slots(&due, 0))
}

/// Y.
pub fn moving_vector(chip: &Chip) -> Vec<u64> {
    let table = chip.table;
    let start = chip.window_start();
    let mut due = vec![0; table.window as usize + 1];
    for (request, task) in chip.requests.iter().zip(&table.tasks) {
        due[(request.deadline - start) as usize] += request.left;
        let mut release = request.release - start + task.period;
        while release < table.window {
            due[(release + task.deadline) as usize] += task.work;
            release += task.period;
        }
    }
    chip.fault.move_due(&mut due, &table.places);
    let mut moving = count_by_place(&table.places, &idle_slots(&due, chip.offset()));
    if let Some(here) = table.places.iter().rposition(|&k| k <= chip.offset()) {
        let fixed = || static_vector(table, chip.fault);
        chip.fault.copy_place(&mut moving, here, fixed);
    }
    moving
}
