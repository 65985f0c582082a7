//! Every number of the definition, starred or not, and its example listing byte for byte.

mod common;

use common::{input, records, M};
use second::admit::{admit, earliest_end, earliest_end_plain, idle_of_a_window};
use second::chip::Chip;
use second::faults::Fault;
use second::latest::{moving_vector, static_vector};
use second::listing::{boot, run, show};
use second::table::{check, Table};
use second::Refusal;

const NONE: Fault = Fault::None;

fn table(list: &[(u64, u64, u64)]) -> Table {
    check(&records(list), NONE).unwrap()
}

fn table_m() -> Table {
    table(&[(2, 3, 5), (2, 8, 10)])
}

fn number(refused: Result<u64, Refusal>) -> u32 {
    refused.unwrap_err().number
}

/// M after the example run's first three slots, with its job of work 2 admitted at 1.
fn m_at_3(table: &Table) -> Chip<'_> {
    let mut chip = Chip::power_on(table, NONE);
    chip.step();
    assert_eq!(admit(&mut chip, 2, None), Ok(4));
    chip.step();
    chip.step();
    chip
}

#[test]
fn the_example_listing() {
    let bytes = [
        0x01, 0x06, 0x00, 0x02, 0x00, 0x03, 0x00, 0x05, 0x00, //
        0x01, 0x06, 0x00, 0x02, 0x00, 0x08, 0x00, 0x0A, 0x00, //
        0x02, 0x06, 0x00, 0x01, 0x00, 0x00, 0x00, 0x02, 0x00, //
        0x03, 0x04, 0x00, 0x0A, 0x00, 0x00, 0x00,
    ];
    let listing = "slot who\n0 P1\na 1 2 4\n1 P1\n2 S4\n3 S4\n4 P2\n5 P1\n6 P1\n7 P2\n8 -\n9 -\n";
    assert_eq!(run(&bytes, NONE), listing);
    assert_eq!(bytes.to_vec(), input(&M, &[(1, 2, None)], 10));
    assert_eq!(boot(&bytes, NONE), "0 0 10\n");
}

#[test]
fn vectors_of_m() {
    let table = table_m();
    assert_eq!(table.window, 10);
    assert_eq!(table.places, [0, 3, 8]);
    assert_eq!(static_vector(&table, NONE), [1, 1, 2]);
    assert_eq!(idle_of_a_window(&Chip::power_on(&table, NONE)), 4);
    let bytes = input(&M, &[(1, 2, None), (3, 4, None)], 4);
    let lines = "W 10\nplaces 3\nK 0 3 8\nD 1 1 2\nF 4\n\
                 at 1\nA 0\nI 0\nY 1 1 2\na 1 2 4\n\
                 at 3\nA 1\nI 0\nY 0 1 2\na 3 4 14\n";
    assert_eq!(show(&bytes, NONE), lines);
}

#[test]
fn promises_of_m_at_0() {
    let table = table_m();
    for (work, promise) in [(1, 1), (3, 9), (4, 10), (5, 11), (30_000, 75_000)] {
        let mut chip = Chip::power_on(&table, NONE);
        assert_eq!(admit(&mut chip, work, None), Ok(promise));
    }
    let mut chip = Chip::power_on(&table, NONE);
    assert_eq!(number(admit(&mut chip, 30_001, None)), 10);
    assert_eq!(number(admit(&mut chip, 0, None)), 10);
    let bytes = input(&M, &[(0, 30_000, None), (0, 30_001, None)], 1);
    assert_eq!(
        run(&bytes, NONE),
        "slot who\na 0 30000 75000\nr 0 30001 10\n0 P1\n"
    );
}

#[test]
fn m_at_3_in_the_example() {
    let table = table_m();
    assert_eq!(moving_vector(&m_at_3(&table)), [0, 1, 2]);
    assert_eq!(admit(&mut m_at_3(&table), 4, None), Ok(14));
    assert_eq!(admit(&mut m_at_3(&table), 4, Some(14)), Ok(14));
    assert_eq!(number(admit(&mut m_at_3(&table), 4, Some(13))), 14);
}

#[test]
fn m_at_9_without_a_job() {
    let table = table_m();
    let mut chip = Chip::power_on(&table, NONE);
    for _ in 0..9 {
        chip.step();
    }
    assert_eq!(moving_vector(&chip), [0, 0, 1]);
    assert_eq!(admit(&mut chip, 2, None), Ok(11));
}

#[test]
fn small_tables() {
    let one = table(&[(2, 3, 5)]);
    assert_eq!(one.places, [0, 3]);
    assert_eq!(static_vector(&one, NONE), [1, 2]);
    let six = check(&records(&[(2, 2, 4), (2, 3, 4)]), NONE).unwrap_err();
    assert_eq!((six.number, six.place), (6, 3));
    let full = table(&[(1, 1, 2), (1, 2, 2)]);
    assert_eq!(static_vector(&full, NONE).iter().sum::<u64>(), 0);
    for work in [1, 2, 29_999, 30_000] {
        let mut chip = Chip::power_on(&full, NONE);
        assert_eq!(number(admit(&mut chip, work, None)), 12);
        chip.step();
        assert_eq!(number(admit(&mut chip, work, Some(0))), 12);
    }
}

#[test]
fn the_source_table() {
    let table = table(&[(5, 25, 30), (10, 40, 50), (20, 55, 75)]);
    assert_eq!(table.window, 150);
    assert_eq!(table.places, [0, 25, 40, 55, 85, 90, 115, 130, 140, 145]);
    assert_eq!(
        static_vector(&table, NONE),
        [15, 0, 0, 20, 0, 15, 0, 0, 0, 5]
    );
    let mut chip = Chip::power_on(&table, NONE);
    assert_eq!(idle_of_a_window(&chip), 55);
    // Whatever the state, with 25 idle slots left in window 0 a need of 68 ends at 248.
    let mut asked = 0;
    while chip.now < 150 {
        if moving_vector(&chip).iter().sum::<u64>() == 25 {
            assert_eq!(earliest_end(&chip, 68), 248);
            assert_eq!(earliest_end_plain(&chip, 68), 248);
            asked += 1;
        }
        chip.step();
    }
    assert!(asked > 0);
}

#[test]
fn limits_of_places_and_window() {
    let most = table(&[(1, 2, 2), (1, 2046, 2046)]);
    assert_eq!(most.places.len(), 1024);
    let refused = |list: &[(u64, u64, u64)]| check(&records(list), NONE).unwrap_err();
    assert_eq!(refused(&[(1, 2, 2), (1, 2045, 2046)]).number, 4);
    assert_eq!(
        table(&[(1, 3000, 3000), (1, 10_000, 10_000)]).window,
        30_000
    );
    let three = refused(&[(1, 9999, 9999), (1, 10_000, 10_000)]);
    assert_eq!((three.number, three.place), (3, 0));
}

#[test]
fn limits_of_tasks() {
    let number_and_place = |list: &[(u64, u64, u64)]| {
        let refusal = check(&records(list), NONE).unwrap_err();
        (refusal.number, refusal.place)
    };
    assert_eq!(number_and_place(&[]), (1, 0));
    assert_eq!(number_and_place(&[(1, 20, 20); 17]), (1, 0));
    for bad in [(0, 1, 1), (2, 1, 2), (1, 3, 2), (1, 1, 10_001), (0, 0, 0)] {
        assert_eq!(number_and_place(&[bad]), (2, 1));
        assert_eq!(number_and_place(&[(1, 9, 9), bad, bad]), (2, 2));
    }
    assert!(check(&records(&[(10_000, 10_000, 10_000)]), NONE).is_ok());
}
