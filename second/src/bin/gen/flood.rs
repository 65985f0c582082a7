//! Byte strings for the boot call, each written as its length, four bytes with the low byte
//! first, and then its bytes, so that one stream serves every reader.

use crate::damage::{damage, random_bytes};
use crate::encode::{Case, NewArrival, NewTask};
use crate::{arrivals, tables};
use second::rng::Rng;
use std::io::Write;

const TABLES: [&[(u16, u16, u16)]; 7] = [
    &[(2, 3, 5), (2, 8, 10)],
    &[(1, 1, 2), (1, 2, 2)],
    &[(5, 25, 30), (10, 40, 50), (20, 55, 75)],
    &[(2, 2, 4), (2, 3, 4)],
    &[(1, 2, 2), (1, 256, 256)],
    &[(3, 257, 300), (256, 512, 600), (1, 1, 100)],
    &[(1, 20, 20); 16],
];

fn good_files() -> Vec<Case> {
    let by = |slot, work, latest| NewArrival { slot, work, latest };
    let arrivals = [
        vec![by(1, 2, None)],
        vec![
            by(0, 300, Some(70_000)),
            by(259, 1, None),
            by(259, 4, Some(9)),
        ],
    ];
    let mut files = Vec::new();
    for tasks in TABLES {
        for arrivals in &arrivals {
            files.push(Case {
                tasks: tasks.iter().map(|&(c, r, p)| NewTask(c, r, p)).collect(),
                arrivals: arrivals.clone(),
                slots: 100_000,
            });
        }
    }
    files
}

fn put(out: &mut impl Write, bytes: &[u8]) -> std::io::Result<()> {
    out.write_all(&(bytes.len() as u32).to_le_bytes())?;
    out.write_all(bytes)
}

/// Fourteen good files, and of each every single-byte change, every cut, every doubled field, and
/// its bytes over and over up to the lengths about the limit.
pub fn write_single(out: &mut impl Write) -> std::io::Result<()> {
    for case in good_files() {
        let bytes = case.bytes();
        put(out, &bytes)?;
        for at in 0..bytes.len() {
            put(out, &bytes[..at])?;
            for value in 0..=255 {
                let mut changed = bytes.clone();
                changed[at] = value;
                put(out, &changed)?;
            }
        }
        for length in 4094..=4099 {
            let long: Vec<u8> = bytes.iter().copied().cycle().take(length).collect();
            put(out, &long)?;
        }
        let fields = case.fields();
        for index in 0..fields.len() {
            let mut doubled = fields.clone();
            doubled.insert(index, fields[index].clone());
            put(out, &doubled.concat())?;
        }
    }
    out.flush()
}

fn sound(rng: &mut Rng) -> Case {
    let slots = *rng.pick(&[0, 10, 300, 99_999, 100_000]);
    let tasks = match rng.within(0, 99) {
        0..=49 => tables::good(rng),
        50..=59 => tables::many(rng),
        60..=74 => tables::tight(rng),
        75..=84 => tables::long_window(rng),
        _ => tables::many_places(rng),
    };
    Case {
        tasks,
        arrivals: arrivals::blind(rng, slots),
        slots,
    }
}

/// So many strings: most are sound files with exactly two damages, some have none, some are
/// random bytes.
pub fn write_seeded(count: usize, seed: u64, out: &mut impl Write) -> std::io::Result<()> {
    let mut seeds = Rng::new(seed);
    for _ in 0..count {
        let rng = &mut Rng::new(seeds.draw());
        let bytes = match rng.within(0, 99) {
            0..=3 => random_bytes(rng),
            4..=8 => sound(rng).bytes(),
            _ => {
                let mut pieces = sound(rng).fields();
                damage(rng, &mut pieces);
                damage(rng, &mut pieces);
                pieces.concat()
            }
        };
        put(out, &bytes)?;
    }
    out.flush()
}
