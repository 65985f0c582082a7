//! The boundary cases that stand first in every set: the definition's own tables and numbers, the
//! edges of the field checks, and the longest promises and windows.

use crate::encode::{arrival, slots, task, Case, NewArrival, NewTask};

const M: [(u16, u16, u16); 2] = [(2, 3, 5), (2, 8, 10)];
const SOURCE: [(u16, u16, u16); 3] = [(5, 25, 30), (10, 40, 50), (20, 55, 75)];
const ONE_IDLE: [(u16, u16, u16); 2] = [(2, 3000, 3000), (9993, 10000, 10000)];
const WIDE: [(u16, u16, u16); 16] = [
    (7, 110, 120),
    (9, 150, 150),
    (10, 200, 200),
    (14, 230, 240),
    (12, 250, 250),
    (20, 290, 300),
    (21, 375, 375),
    (25, 400, 400),
    (30, 480, 500),
    (30, 600, 600),
    (30, 625, 625),
    (40, 700, 750),
    (50, 1000, 1000),
    (60, 1200, 1200),
    (150, 2900, 3000),
    (600, 9000, 10000),
];

/// An arrival: slot, work and latest finish, below 0 for none.
type Asked = (u32, u16, i64);

fn case(tasks: &[(u16, u16, u16)], arrivals: &[Asked], slots: u32) -> Vec<u8> {
    let arrivals = arrivals.iter().map(|&(slot, work, latest)| NewArrival {
        slot,
        work,
        latest: u32::try_from(latest).ok(),
    });
    Case {
        tasks: tasks.iter().map(|&(c, r, p)| NewTask(c, r, p)).collect(),
        arrivals: arrivals.collect(),
        slots,
    }
    .bytes()
}

fn runs(all: &mut Vec<Vec<u8>>) {
    all.push(case(&M, &[(1, 2, -1)], 10));
    for work in [1, 3, 4, 5, 30_000, 30_001, 0, 65_535] {
        all.push(case(&M, &[(0, work, -1)], 25));
    }
    for latest in [-1, 14, 13, 15, 0, 3] {
        all.push(case(&M, &[(1, 2, -1), (3, 4, latest)], 30));
    }
    all.push(case(&M, &[(9, 2, -1)], 25));
    all.push(case(&M, &[(1, 2, -1); 12], 60));
    all.push(case(&M, &[(0, 30_000, -1); 9], 60));
    all.push(case(&M, &[(9, 1, -1), (10, 1, -1), (11, 1, -1)], 10));
    all.push(case(&M, &[(9, 1, -1), (10, 1, -1)], 11));
    all.push(case(&M, &[(0, 1, -1)], 0));
    all.push(case(&M, &[(4_294_967_295, 1, 4_294_967_295)], 5));
    all.push(case(&M, &[(4, 3, 4_294_967_295), (4, 3, 0)], 40));
    all.push(case(&[(2, 3, 5)], &[(0, 3, 5), (2, 1, 5), (7, 2, -1)], 20));
    all.push(case(&[(2, 2, 4), (2, 3, 4)], &[(0, 1, -1)], 10));
    let full = [(1, 1, 2), (1, 2, 2)];
    all.push(case(&full, &[(0, 1, -1), (0, 0, -1), (3, 30_001, 9)], 10));
    all.push(case(&full, &[(0, 30_000, 0)], 10));
    let asked: Vec<Asked> = vec![(0, 43, 98), (0, 43, -1), (20, 60, -1), (100, 18, 400)];
    all.push(case(&SOURCE, &asked, 460));
    let asked: Vec<Asked> = (0..150).map(|s| (s, 1, -1)).collect();
    all.push(case(&SOURCE, &asked, 300));
    let asked: Vec<Asked> = (0..10).map(|_| (29_999, 30_000, -1)).collect();
    all.push(case(&ONE_IDLE, &[(0, 30_000, -1); 9], 40));
    all.push(case(&ONE_IDLE, &asked, 30_050));
    let asked: Vec<Asked> = (0..400).map(|n| (n * 250, 25, -1)).collect();
    all.push(case(&WIDE, &asked, 100_000));
    let asked: Vec<Asked> = (0..60).map(|n| (n * 500, 3000, -1)).collect();
    all.push(case(&WIDE, &asked, 31_000));
}

fn tables(all: &mut Vec<Vec<u8>>) {
    let asked: Vec<Asked> = vec![(0, 1, -1), (1000, 500, -1), (2045, 1, 2046)];
    all.push(case(&[(1, 2, 2), (1, 2046, 2046)], &asked, 4200));
    all.push(case(&[(1, 2, 2), (1, 2045, 2046)], &asked, 50));
    all.push(case(&[(1, 2, 2), (1, 2048, 2048)], &asked, 50));
    all.push(case(&[(1, 1, 2), (1, 2046, 2046)], &asked, 50));
    let asked: Vec<Asked> = vec![(0, 30_000, -1), (5, 1, -1)];
    all.push(case(&[(1, 3000, 3000), (1, 10_000, 10_000)], &asked, 50));
    all.push(case(&[(1, 2999, 3000), (1, 9999, 10_000)], &asked, 50));
    all.push(case(&[(1, 9999, 9999), (1, 10_000, 10_000)], &asked, 50));
    all.push(case(&[(1, 1, 1)], &asked, 10));
    all.push(case(&[(1, 1, 2)], &asked, 10));
    all.push(case(&[(1, 10_000, 10_000)], &asked, 10));
    all.push(case(&[(10_000, 10_000, 10_000)], &asked, 10));
    all.push(case(&[(1, 10_001, 10_001)], &asked, 10));
    all.push(case(&[(1, 1, 1); 16], &asked, 10));
    all.push(case(&[(3, 3, 5), (2, 4, 5), (1, 10, 10)], &asked, 10));
    all.push(case(&[(1, 16, 16); 16], &asked, 40));
    all.push(case(&[(1, 17, 17); 16], &asked, 40));
    for bad in [(0, 1, 1), (2, 1, 3), (1, 3, 2), (0, 0, 0), (1, 1, 65_535)] {
        all.push(case(&[(2, 3, 5), bad], &asked, 10));
        all.push(case(&[bad, (0, 0, 0)], &asked, 10));
    }
}

fn field_edges(all: &mut Vec<Vec<u8>>) {
    let one = task(NewTask(2, 3, 5));
    let asked = |slot, latest| {
        let new = NewArrival {
            slot,
            work: 1,
            latest,
        };
        arrival(new)
    };
    let end = slots(10);
    let join = |parts: &[&[u8]]| parts.concat();
    all.push(vec![]);
    all.push(vec![1]);
    all.push(vec![9, 9]);
    all.push(vec![9, 9, 9]);
    all.push(join(&[&one, &[0, 6, 0]]));
    all.push(join(&[&one, &[4, 4, 0]]));
    all.push(join(&[&one, &[1, 7, 0]]));
    all.push(join(&[&one, &[2, 7, 0]]));
    all.push(join(&[&one, &[3, 3, 0]]));
    all.push(join(&[&one, &[3, 4, 1]]));
    all.push(one.clone());
    all.push(join(&[&one, &asked(3, None)]));
    all.push(end.clone());
    all.push(asked(0, None));
    all.push(asked(0, None)[..8].to_vec());
    all.push(join(&[&one, &asked(0, None), &one, &end]));
    all.push(join(&[&one, &asked(4, None), &asked(3, None), &end]));
    all.push(join(&[&one, &asked(90, None), &asked(89, None), &end]));
    all.push(join(&[&one, &asked(4, Some(3)), &asked(4, Some(7)), &end]));
    all.push(join(&[&one, &end, &[0]]));
    all.push(join(&[&one, &end, &one]));
    all.push(join(&[&one, &slots(100_001), &[0]]));
    all.push(join(&[&one, &slots(100_001)]));
    all.push(join(&[&one, &slots(100_000)]));
    all.push(join(&[&one, &slots(u32::MAX)]));
    all.push(slots(100_001));
    all.push(join(&[&one.repeat(17), &end]));
    all.push(join(&[&one.repeat(16), &[1, 6, 0, 1]]));
    all.push(join(&[&one.repeat(16), &asked(0, None), &one, &end]));
    all.push(join(&[&one, &end[..6]]));
    all.push(join(&[&one, &end[..2]]));
    all.push(join(&[&one, &end[..1]]));
    // 4,096 bytes to the last, then one and many more.
    let short = asked(1, None).repeat(449);
    let long = asked(1, Some(70)).repeat(3);
    let most = join(&[&one, &short, &long, &end]);
    all.push(most.clone());
    all.push(join(&[&most, &[0]]));
    all.push(vec![0; 4097]);
    all.push(vec![0; 4096]);
    all.push(join(&[&one, &asked(1, None).repeat(900), &end]));
}

pub fn cases() -> Vec<Vec<u8>> {
    let mut all = Vec::new();
    runs(&mut all);
    tables(&mut all);
    field_edges(&mut all);
    all
}
