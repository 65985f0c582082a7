//! Damage to the fields of a sound case, one of every kind: a byte, a field, a tag, a length, a
//! number at its limit, and too much or too little of everything. Damage adds up: each works on
//! what the one before has left, piece by piece.

use crate::encode::{slots, task, NewTask};
use second::rng::Rng;

/// The bytes of each field, sound or not.
pub type Pieces = Vec<Vec<u8>>;

type Damage = fn(&mut Rng, &mut Pieces);

/// Each kind and its share.
const KINDS: [(u64, Damage); 19] = [
    (8, change_byte),
    (6, drop_byte),
    (6, put_in_byte),
    (5, cut_file),
    (5, cut_field),
    (6, repeat_field),
    (6, exchange_fields),
    (6, move_field),
    (4, drop_field),
    (6, change_tag),
    (6, change_length),
    (4, swap_length),
    (10, task_at_limit),
    (6, arrival_at_limit),
    (6, run_at_limit),
    (5, bytes_after_end),
    (8, many_tasks),
    (2, many_bytes),
    (6, no_end),
];

fn some(rng: &mut Rng, length: usize) -> Option<usize> {
    (length > 0).then(|| rng.within(0, length as u64 - 1) as usize)
}

/// A random piece that has bytes, and one of its bytes.
fn some_byte(rng: &mut Rng, pieces: &Pieces) -> Option<(usize, usize)> {
    let piece = some(rng, pieces.len())?;
    Some((piece, some(rng, pieces[piece].len())?))
}

/// A random piece of this tag that reaches as far as its sound body does.
fn some_of(rng: &mut Rng, pieces: &Pieces, tag: u8, length: usize) -> Option<usize> {
    let fits = |i: &usize| pieces[*i].first() == Some(&tag) && pieces[*i].len() >= length;
    let all: Vec<usize> = (0..pieces.len()).filter(fits).collect();
    some(rng, all.len()).map(|i| all[i])
}

fn change_byte(rng: &mut Rng, pieces: &mut Pieces) {
    if let Some((piece, at)) = some_byte(rng, pieces) {
        pieces[piece][at] ^= rng.within(1, 255) as u8;
    }
}

fn drop_byte(rng: &mut Rng, pieces: &mut Pieces) {
    if let Some((piece, at)) = some_byte(rng, pieces) {
        pieces[piece].remove(at);
    }
}

fn put_in_byte(rng: &mut Rng, pieces: &mut Pieces) {
    if let Some((piece, at)) = some_byte(rng, pieces) {
        let most = *rng.pick(&[10, 255]);
        pieces[piece].insert(at, rng.within(0, most) as u8);
    }
}

/// The file ends within a field.
fn cut_file(rng: &mut Rng, pieces: &mut Pieces) {
    if let Some((piece, at)) = some_byte(rng, pieces) {
        pieces[piece].truncate(at);
        pieces.truncate(piece + 1);
    }
}

/// A field ends early and the next follows at once.
fn cut_field(rng: &mut Rng, pieces: &mut Pieces) {
    if let Some((piece, at)) = some_byte(rng, pieces) {
        pieces[piece].truncate(at);
    }
}

fn repeat_field(rng: &mut Rng, pieces: &mut Pieces) {
    if let Some(piece) = some(rng, pieces.len()) {
        let copy = pieces[piece].clone();
        pieces.insert(piece, copy);
    }
}

fn exchange_fields(rng: &mut Rng, pieces: &mut Pieces) {
    if let (Some(one), Some(other)) = (some(rng, pieces.len()), some(rng, pieces.len())) {
        pieces.swap(one, other);
    }
}

fn move_field(rng: &mut Rng, pieces: &mut Pieces) {
    if let (Some(from), Some(to)) = (some(rng, pieces.len()), some(rng, pieces.len())) {
        let piece = pieces.remove(from);
        pieces.insert(to, piece);
    }
}

fn drop_field(rng: &mut Rng, pieces: &mut Pieces) {
    if let Some(piece) = some(rng, pieces.len()) {
        pieces.remove(piece);
    }
}

fn change_tag(rng: &mut Rng, pieces: &mut Pieces) {
    if let Some(piece) = some(rng, pieces.len()).filter(|&i| !pieces[i].is_empty()) {
        let most = *rng.pick(&[4, 4, 255]);
        pieces[piece][0] = rng.within(0, most) as u8;
    }
}

/// A length becomes that of another tag, one more or less than any, or has its high byte set.
fn change_length(rng: &mut Rng, pieces: &mut Pieces) {
    if let Some(piece) = some(rng, pieces.len()).filter(|&i| pieces[i].len() >= 3) {
        let length: u16 = *rng.pick(&[4, 6, 10, 3, 5, 7, 9, 11, 0, 0xffff]);
        let high = if rng.percent(30) { 256 } else { 0 };
        pieces[piece][1..3].copy_from_slice(&(length | high).to_le_bytes());
    }
}

/// High byte first.
fn swap_length(rng: &mut Rng, pieces: &mut Pieces) {
    if let Some(piece) = some(rng, pieces.len()).filter(|&i| pieces[i].len() >= 3) {
        pieces[piece].swap(1, 2);
    }
}

fn short(piece: &[u8], at: usize) -> u16 {
    u16::from_le_bytes([piece[at], piece[at + 1]])
}

/// Work, deadline or period at a limit, or one past it.
fn task_at_limit(rng: &mut Rng, pieces: &mut Pieces) {
    let Some(piece) = some_of(rng, pieces, 1, 9) else {
        return;
    };
    let task = &mut pieces[piece];
    let (c, r, p) = (short(task, 3), short(task, 5), short(task, 7));
    let (at, number) = *rng.pick(&[
        (3, 0),
        (3, 1),
        (3, r),
        (3, r.saturating_add(1)),
        (5, c.saturating_sub(1)),
        (5, c),
        (5, p),
        (5, p.saturating_add(1)),
        (7, r.saturating_sub(1)),
        (7, r),
        (7, 9_999),
        (7, 10_000),
        (7, 10_001),
        (7, 65_535),
    ]);
    task[at..at + 2].copy_from_slice(&number.to_le_bytes());
}

/// Work or slot at a limit; a slot also as that of the arrival before, and one below it.
fn arrival_at_limit(rng: &mut Rng, pieces: &mut Pieces) {
    let Some(piece) = some_of(rng, pieces, 2, 9) else {
        return;
    };
    let before = match piece.checked_sub(1).map(|i| &pieces[i]) {
        Some(field) if field.first() == Some(&2) && field.len() >= 7 => {
            u32::from_le_bytes([field[3], field[4], field[5], field[6]])
        }
        _ => 0,
    };
    if rng.percent(30) {
        let work: u16 = *rng.pick(&[0, 1, 30_000, 30_001, 65_535]);
        pieces[piece][7..9].copy_from_slice(&work.to_le_bytes());
    } else {
        let slot = *rng.pick(&[before, before.saturating_sub(1), 0, u32::MAX]);
        pieces[piece][3..7].copy_from_slice(&slot.to_le_bytes());
    }
}

fn run_at_limit(rng: &mut Rng, pieces: &mut Pieces) {
    if let Some(piece) = some_of(rng, pieces, 3, 7) {
        let count = *rng.pick(&[0, 1, 100_000, 100_001, 100_001, 0x0001_0000, u32::MAX]);
        pieces[piece] = slots(count);
    }
}

fn bytes_after_end(rng: &mut Rng, pieces: &mut Pieces) {
    let length = rng.within(1, 9);
    pieces.push((0..length).map(|_| rng.within(0, 10) as u8).collect());
}

/// Tasks in front until there are sixteen, seventeen or eighteen.
fn many_tasks(rng: &mut Rng, pieces: &mut Pieces) {
    let wanted = *rng.pick(&[16, 17, 17, 17, 18]);
    let here = pieces.iter().filter(|p| p.first() == Some(&1)).count();
    for _ in here..wanted {
        pieces.insert(0, task(NewTask(1, 600, 600)));
    }
}

/// Repeats a field until the file is just below, at or above the longest input.
fn many_bytes(rng: &mut Rng, pieces: &mut Pieces) {
    let Some(piece) = some(rng, pieces.len()).filter(|&i| !pieces[i].is_empty()) else {
        return;
    };
    let wanted = rng.within(4080, 4120) as usize;
    let copy = pieces[piece].clone();
    let mut bytes: usize = pieces.iter().map(Vec::len).sum();
    while bytes < wanted {
        pieces.insert(piece, copy.clone());
        bytes += copy.len();
    }
}

fn no_end(_: &mut Rng, pieces: &mut Pieces) {
    pieces.retain(|piece| piece.first() != Some(&3));
}

/// One damage of a random kind.
pub fn damage(rng: &mut Rng, pieces: &mut Pieces) {
    let all = KINDS.iter().map(|(share, _)| share).sum::<u64>();
    let mut drawn = rng.within(1, all);
    for (share, kind) in KINDS {
        if drawn <= share {
            return kind(rng, pieces);
        }
        drawn -= share;
    }
}

/// Bytes of no form, mostly small ones.
pub fn random_bytes(rng: &mut Rng) -> Vec<u8> {
    let length = rng.within(0, 80);
    let most = *rng.pick(&[3, 10, 255]);
    (0..length).map(|_| rng.within(0, most) as u8).collect()
}
