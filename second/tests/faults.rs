//! Each named fault shows in the listing or in the bench's view of one small case, and those that
//! are said to show at boot, and no others, in the boot call's answer.

mod common;

use common::{arrival, input, slots, task, M};
use second::faults::{Fault, AT_BOOT, NAMES};
use second::listing::{boot, run, show};

fn cases() -> Vec<Vec<u8>> {
    let one = task(2, 3, 5);
    let after = |more: &[u8]| [&one, more].concat();
    let seventeenth = [one.repeat(16), arrival(0, 1, None), one.clone()].concat();
    vec![
        input(&M, &[(1, 2, None), (3, 4, Some(14)), (9, 2, None)], 40),
        input(&M, &[(9, 2, None), (12, 2, None)], 40),
        input(&M, &[(0, 1, None); 9], 40),
        input(&M, &[(0, 30, None)], 5),
        input(&[(1, 4, 4), (2, 4, 4)], &[], 5),
        input(&[(0, 1, 1), (2, 1, 1)], &[], 5),
        input(&[(3, 3, 5), (2, 4, 5), (1, 10, 10)], &[], 5),
        input(&[(1, 2, 2), (1, 2045, 2046)], &[], 5),
        input(&M, &[(4, 1, None), (3, 1, None)], 5),
        input(&M, &[], 100_001),
        after(&[9, 1, 0]),
        after(&[3, 6, 0]),
        after(&[3, 4, 1, 5, 0, 0, 0]),
        after(&[slots(5), vec![0]].concat()),
        seventeenth,
        one.repeat(456)[..4097].to_vec(),
    ]
}

#[test]
fn every_fault_shows() {
    for (name, fault) in NAMES {
        let shows = cases().iter().any(|bytes| {
            run(bytes, fault) != run(bytes, Fault::None)
                || show(bytes, fault) != show(bytes, Fault::None)
        });
        assert!(shows, "{name}");
    }
}

#[test]
fn the_first_names_show_at_boot() {
    for (index, (name, fault)) in NAMES.into_iter().enumerate() {
        let differs = |bytes: &Vec<u8>| boot(bytes, fault) != boot(bytes, Fault::None);
        assert_eq!(cases().iter().any(differs), index < AT_BOOT, "{name}");
    }
}

#[test]
fn names_are_found() {
    for (name, fault) in NAMES {
        assert_eq!(Fault::named(name), Some(fault));
    }
    assert_eq!(Fault::named("none"), None);
}

#[test]
fn a_copied_place_shows_two_idle_slots_where_one_is_left() {
    let bytes = input(&M, &[(9, 2, None)], 10);
    assert!(show(&bytes, Fault::None).contains("Y 0 0 1\n"));
    assert!(show(&bytes, Fault::CopyD).contains("Y 0 0 2\n"));
}

#[test]
fn a_window_forgotten_is_a_promise_too_early() {
    let bytes = input(&M, &[(0, 30, None)], 1);
    assert!(run(&bytes, Fault::None).contains("a 0 30 74\n"));
    assert!(run(&bytes, Fault::WindowSkip).contains("a 0 30 64\n"));
    let bytes = input(&M, &[(0, 8, None)], 1);
    assert_eq!(run(&bytes, Fault::WindowSkip), run(&bytes, Fault::None));
}

#[test]
fn work_that_comes_in_late_or_never() {
    let bytes = input(&[(2, 3, 5)], &[], 9);
    let told = |fault| run(&bytes, fault).replace('\n', " ");
    assert!(told(Fault::None).ends_with("5 P1 6 P1 7 - 8 - "));
    assert!(told(Fault::ReleaseLate).ends_with("5 - 6 P1 7 P1 8 - "));
    assert!(told(Fault::ReleaseLost).ends_with("5 - 6 - 7 - 8 - "));
}

#[test]
fn jobs_that_do_not_move_up() {
    let bytes = input(&[(1, 10, 10)], &[(0, 1, None); 3], 4);
    let told = |fault| run(&bytes, fault).replace('\n', " ");
    assert!(told(Fault::None).ends_with("0 S1 1 S2 2 S3 3 P1 "));
    assert!(told(Fault::MoveUp).ends_with("0 S1 1 S3 2 S2 3 P1 "));
    assert!(told(Fault::JobLost).ends_with("0 S1 1 S3 2 P1 3 - "));
}

#[test]
fn a_deadline_counted_above_its_own_place() {
    let view = show(&input(&M, &[], 1), Fault::DeadlineEqual);
    assert!(view.contains("D 3 1 0\n"), "{view}");
}
