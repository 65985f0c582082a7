//! The unclear places of the definition, as they are read, where a run, the bench's view or the
//! boot call can reach them.

mod common;

use common::{input, records, slots, tasks, M};
use second::admit::{admit, earliest_end};
use second::chip::{Chip, Job, Who};
use second::faults::Fault;
use second::listing::{boot, run, show};
use second::table::check;

const NONE: Fault = Fault::None;

#[test]
fn the_longest_promise() {
    let list = [(2, 3000, 3000), (9993, 10_000, 10_000)];
    let table = check(&records(&list), NONE).unwrap();
    let mut chip = Chip::power_on(&table, NONE);
    assert_eq!(earliest_end(&chip, 8 * 30_000), 7_199_970_001);
    let mut last = 0;
    for _ in 0..8 {
        last = admit(&mut chip, 30_000, None).unwrap();
    }
    assert_eq!(last, 7_199_970_001);
    assert_eq!(admit(&mut chip, 30_000, None).unwrap_err().number, 11);
    assert_eq!(admit(&mut chip, 30_001, None).unwrap_err().number, 10);
    let list = [(2, 3000, 3000), (9993, 10_000, 10_000)];
    let bytes = input(&list, &[(0, 30_000, None); 9], 1);
    let listing = run(&bytes, NONE);
    assert!(listing.contains("a 0 30000 7199970001\nr 0 30000 11\n"));
}

#[test]
fn a_tie_between_job_and_task_goes_to_the_job() {
    let table = check(&records(&[(2, 3, 5), (2, 8, 10)]), NONE).unwrap();
    let mut chip = Chip::power_on(&table, NONE);
    chip.jobs.push_back(Job {
        left: 1,
        promise: 3,
    });
    assert_eq!(chip.step(), Who::Job(3));
    assert_eq!((chip.tally_jobs, chip.tally_idle), (1, 0));
    assert!(chip.jobs.is_empty());
}

#[test]
fn a_tie_between_tasks_goes_to_the_lowest_number() {
    let bytes = input(&[(1, 4, 4), (2, 4, 4)], &[], 5);
    assert_eq!(run(&bytes, NONE), "slot who\n0 P1\n1 P2\n2 P2\n3 -\n4 P1\n");
}

#[test]
fn a_latest_finish_at_or_before_now_is_too_late_only_after_all_else() {
    let bytes = input(&M, &[(5, 1, Some(5)), (5, 1, Some(0)), (5, 0, Some(0))], 6);
    let listing = run(&bytes, NONE);
    assert!(listing.contains("r 5 1 14\nr 5 1 14\nr 5 0 10\n"));
    let full = [(1, 1, 2), (1, 2, 2)];
    let bytes = input(&full, &[(0, 1, Some(0))], 1);
    assert_eq!(run(&bytes, NONE), "slot who\nr 0 1 12\n0 P1\n");
}

#[test]
fn a_ninth_job_is_refused_before_too_late() {
    let mut asked = vec![(0, 1, None); 8];
    asked.push((0, 1, Some(0)));
    let listing = run(&input(&M, &asked, 1), NONE);
    assert!(listing.contains("r 0 1 11\n"));
    assert_eq!(listing.matches("a 0 1 ").count(), 8);
}

#[test]
fn a_run_of_no_slots() {
    assert_eq!(run(&input(&M, &[(0, 1, None)], 0), NONE), "slot who\n");
    let view = show(&input(&M, &[(0, 1, None)], 0), NONE);
    assert_eq!(view, "W 10\nplaces 3\nK 0 3 8\nD 1 1 2\nF 4\n");
}

#[test]
fn arrivals_at_or_after_the_end_are_not_shown() {
    let bytes = input(&M, &[(1, 2, None), (2, 1, None), (3, 1, None)], 2);
    assert_eq!(run(&bytes, NONE), "slot who\n0 P1\na 1 2 4\n1 P1\n");
    assert_eq!(show(&bytes, NONE).matches("at ").count(), 1);
}

#[test]
fn works_out_of_range_are_printed_as_read() {
    let bytes = input(&M, &[(0, 0, None), (0, 65_535, Some(9))], 1);
    assert_eq!(
        run(&bytes, NONE),
        "slot who\nr 0 0 10\nr 0 65535 10\n0 P1\n"
    );
}

#[test]
fn tallies_start_anew_with_a_window() {
    let asked = [(8, 0, None), (9, 1, None), (10, 0, None), (12, 0, None)];
    let view = show(&input(&M, &asked, 20), NONE);
    let tallies: Vec<&str> = view
        .lines()
        .filter(|l| l.starts_with("A ") || l.starts_with("I "))
        .collect();
    assert_eq!(
        tallies,
        ["A 0", "I 2", "A 0", "I 3", "A 0", "I 0", "A 0", "I 0"]
    );
}

#[test]
fn bad_tables_in_all_three_answers() {
    let cases = [
        ([(1, 2, 3), (0, 0, 0)], "2 2"),
        ([(1, 9999, 9999), (1, 10_000, 10_000)], "3 0"),
        ([(1, 2, 2), (1, 2045, 2046)], "4 0"),
        ([(2, 2, 4), (2, 3, 4)], "6 3"),
    ];
    for (list, told) in cases {
        let bytes = input(&list, &[(0, 1, None)], 10);
        assert_eq!(run(&bytes, NONE), format!("slot who\nx {told}\n"));
        assert_eq!(show(&bytes, NONE), format!("x {told}\n"));
        assert_eq!(boot(&bytes, NONE), format!("{told} 0\n"));
    }
}

#[test]
fn fields_are_judged_before_the_table() {
    let mut bytes = tasks(&[(0, 0, 0)]);
    bytes.extend(slots(100_001));
    assert_eq!(run(&bytes, NONE), "slot who\nx 21 9\n");
}
