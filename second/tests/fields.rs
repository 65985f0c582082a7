//! Damaged inputs for every refusal of the field reader, and the order in which they are asked.

mod common;

use common::{arrival, input, slots, task, M};
use second::faults::Fault;
use second::fields::read;
use second::listing::boot;

fn told(bytes: &[u8]) -> (u32, u64) {
    match read(bytes, Fault::None) {
        Ok(_) => (0, 0),
        Err(refusal) => (refusal.number, refusal.place),
    }
}

fn join(parts: &[Vec<u8>]) -> Vec<u8> {
    parts.concat()
}

fn one() -> Vec<u8> {
    task(2, 3, 5)
}

#[test]
fn sixteen_cut_head() {
    assert_eq!(told(&[1]), (16, 0));
    assert_eq!(told(&[9, 9]), (16, 0));
    assert_eq!(told(&join(&[one(), vec![3, 4]])), (16, 9));
}

#[test]
fn sixteen_cut_body() {
    let whole = input(&M, &[(1, 2, None)], 10);
    assert_eq!(told(&whole), (0, 0));
    for length in 0..whole.len() {
        let field = [0, 9, 18, 27]
            .iter()
            .filter(|&&f| f <= length)
            .max()
            .unwrap();
        let number = if *field == length { 19 } else { 16 };
        assert_eq!(told(&whole[..length]), (number, *field as u64));
    }
    assert_eq!(told(&arrival(0, 1, None)[..8]), (16, 0));
    assert_eq!(told(&arrival(0, 1, Some(1))[..12]), (16, 0));
    let seventeenth = join(&[one().repeat(16), one()[..8].to_vec()]);
    assert_eq!(told(&seventeenth), (16, 144));
}

#[test]
fn seventeen_unknown_tag() {
    for tag in [0, 4, 5, 255] {
        assert_eq!(told(&[tag, 6, 0]), (17, 0));
        assert_eq!(told(&join(&[one(), vec![tag, 255, 255]])), (17, 9));
    }
}

#[test]
fn eighteen_wrong_length() {
    for head in [
        [1, 5, 0],
        [1, 7, 0],
        [1, 10, 0],
        [1, 6, 1],
        [2, 0, 0],
        [2, 7, 0],
        [2, 11, 0],
        [2, 10, 1],
        [3, 3, 0],
        [3, 6, 0],
        [3, 4, 1],
    ] {
        assert_eq!(told(&head), (18, 0));
        assert_eq!(told(&join(&[one(), head.to_vec()])), (18, 9));
    }
}

#[test]
fn nineteen_wrong_order() {
    assert_eq!(told(&[]), (19, 0));
    assert_eq!(told(&one()), (19, 9));
    assert_eq!(told(&join(&[one(), arrival(0, 1, Some(2))])), (19, 22));
    assert_eq!(told(&arrival(0, 1, None)), (19, 0));
    assert_eq!(told(&slots(5)), (19, 0));
    assert_eq!(told(&slots(100_001)), (19, 0));
    let late_task = join(&[one(), arrival(0, 1, None), one(), slots(5)]);
    assert_eq!(told(&late_task), (19, 18));
    let falling = join(&[one(), arrival(4, 1, None), arrival(3, 1, None)]);
    assert_eq!(told(&falling), (19, 18));
    let level = join(&[one(), arrival(4, 1, None), arrival(4, 1, None), slots(1)]);
    assert_eq!(told(&level), (0, 0));
    for after in [vec![0], vec![9, 9], one(), slots(5)] {
        assert_eq!(told(&join(&[one(), slots(5), after])), (19, 16));
    }
    let seventeenth_late = join(&[one().repeat(16), arrival(0, 1, None), one()]);
    assert_eq!(told(&seventeenth_late), (19, 153));
    let beyond_the_end = join(&[one(), arrival(9, 1, None), arrival(8, 1, None), slots(1)]);
    assert_eq!(told(&beyond_the_end), (19, 18));
}

#[test]
fn one_seventeenth_task() {
    assert_eq!(told(&join(&[one().repeat(16), slots(5)])), (0, 0));
    assert_eq!(told(&one().repeat(17)), (1, 144));
    assert_eq!(boot(&one().repeat(17), Fault::None), "1 144 0\n");
}

#[test]
fn twenty_one_run_too_long() {
    assert_eq!(told(&join(&[one(), slots(100_000)])), (0, 0));
    assert_eq!(told(&join(&[one(), slots(100_001)])), (21, 9));
    assert_eq!(told(&join(&[one(), slots(u32::MAX)])), (21, 9));
    assert_eq!(told(&join(&[one(), slots(100_001), vec![0]])), (21, 9));
}

#[test]
fn twenty_input_too_long() {
    let arrivals = join(&[
        arrival(1, 1, None).repeat(449),
        arrival(1, 1, Some(7)).repeat(3),
    ]);
    let most = join(&[one(), arrivals, slots(5)]);
    assert_eq!(most.len(), 4096);
    assert_eq!(told(&most), (0, 0));
    assert_eq!(told(&join(&[most, vec![0]])), (20, 0));
    assert_eq!(told(&[0; 4097]), (20, 0));
    assert_eq!(told(&[0; 4096]), (17, 0));
}

#[test]
fn numbers_are_read_low_byte_first() {
    let bytes = input(
        &[(0x0102, 0x0304, 0x0506)],
        &[(0x0001_0203, 0x0405, Some(0x0607_0809))],
        0x0001_0203,
    );
    let fields = read(&bytes, Fault::None).unwrap();
    let task = fields.tasks[0];
    assert_eq!(
        (task.work, task.deadline, task.period),
        (0x0102, 0x0304, 0x0506)
    );
    let new = fields.arrivals[0];
    assert_eq!((new.slot, new.work), (0x0001_0203, 0x0405));
    assert_eq!(new.latest, Some(0x0607_0809));
    assert_eq!(fields.slots, 0x0001_0203);
    assert_eq!(bytes[3..9], [2, 1, 4, 3, 6, 5]);
}
