//! Short writers of fields and tables for the tests.

#![allow(dead_code)]

use second::table::Task;

pub fn task(c: u16, r: u16, p: u16) -> Vec<u8> {
    let mut bytes = vec![1, 6, 0];
    for number in [c, r, p] {
        bytes.extend(number.to_le_bytes());
    }
    bytes
}

pub fn arrival(slot: u32, work: u16, latest: Option<u32>) -> Vec<u8> {
    let mut bytes = vec![2, if latest.is_some() { 10 } else { 6 }, 0];
    bytes.extend(slot.to_le_bytes());
    bytes.extend(work.to_le_bytes());
    if let Some(latest) = latest {
        bytes.extend(latest.to_le_bytes());
    }
    bytes
}

pub fn slots(count: u32) -> Vec<u8> {
    let mut bytes = vec![3, 4, 0];
    bytes.extend(count.to_le_bytes());
    bytes
}

pub fn tasks(list: &[(u16, u16, u16)]) -> Vec<u8> {
    list.iter().flat_map(|&(c, r, p)| task(c, r, p)).collect()
}

pub fn input(
    list: &[(u16, u16, u16)],
    arrivals: &[(u32, u16, Option<u32>)],
    count: u32,
) -> Vec<u8> {
    let mut bytes = tasks(list);
    for &(slot, work, latest) in arrivals {
        bytes.extend(arrival(slot, work, latest));
    }
    bytes.extend(slots(count));
    bytes
}

pub fn records(list: &[(u64, u64, u64)]) -> Vec<Task> {
    let task = |&(work, deadline, period): &(u64, u64, u64)| Task {
        work,
        deadline,
        period,
    };
    list.iter().map(task).collect()
}

pub const M: [(u16, u16, u16); 2] = [(2, 3, 5), (2, 8, 10)];
