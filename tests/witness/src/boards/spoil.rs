//! What can be wrong with a pair of files.

use super::file::{written, BoardRecord, TRAILER};
use super::pairs::Pair;
use crate::rng::Rng;

/// The first five are about records, the others about bytes. Some may leave a
/// right file: an empty one has no record to spoil.
pub const SPOILT: [&str; 21] = [
    "order above 3",
    "zero byte not zero",
    "value of a step, LL or VL",
    "falling tick",
    "a process in both files",
    "empty file",
    "nothing but a trailer",
    "cut anywhere",
    "cut before the trailer's end",
    "a byte after the trailer",
    "a byte inserted",
    "sign byte wrong",
    "sign backwards",
    "offset one off",
    "count one off",
    "offset and count large",
    "count right modulo 2 to the 32nd",
    "offset right modulo 2 to the 32nd",
    "records among the free bytes",
    "free bytes among the records",
    "zero bytes for a trailer",
];

/// Spoils one of the two files, sometimes both.
pub fn spoilt(rng: &mut Rng, pair: &mut Pair, records: [Vec<BoardRecord>; 2]) {
    let (kind, which) = (some_kind(rng), rng.below(2));
    spoil(rng, pair, &records, which, kind);
    pair.spoilt = Some(SPOILT[kind]);
    if rng.once_in(4) {
        let kind = some_kind(rng);
        spoil(rng, pair, &records, 1 - which, kind);
    }
}

fn some_kind(rng: &mut Rng) -> usize {
    match rng.below(2) {
        0 => rng.below(5),
        _ => rng.between(5, SPOILT.len() - 1),
    }
}

fn spoil(
    rng: &mut Rng,
    pair: &mut Pair,
    records: &[Vec<BoardRecord>; 2],
    which: usize,
    kind: usize,
) {
    let bytes = match kind {
        0..=4 => {
            let mut mine = records[which].clone();
            spoil_record(rng, &mut mine, &records[1 - which], kind);
            written(&[], &mine)
        }
        _ => spoil_bytes(rng, [&pair.first, &pair.second][which].clone(), kind),
    };
    *[&mut pair.first, &mut pair.second][which] = bytes;
}

fn spoil_record(rng: &mut Rng, mine: &mut [BoardRecord], other: &[BoardRecord], kind: usize) {
    if mine.is_empty() {
        return;
    }
    let at = rng.below(mine.len());
    let others = other.first().map_or(0, |record| record.process);
    let lower = mine[at.saturating_sub(1)].tick.saturating_sub(1);
    let record = &mut mine[at];
    match kind {
        0 => record.order = rng.pick(&[4, 5, 128, 255]),
        1 => record.zeros[rng.below(2)] = rng.pick(&[1, 128, 255]),
        2 => {
            record.order = rng.pick(&[0, 1, 3]);
            record.value = rng.pick(&[1, 256, 1 << 31]);
        }
        3 => record.tick = lower,
        _ => record.process = others,
    }
}

fn spoil_bytes(rng: &mut Rng, mut bytes: Vec<u8>, kind: usize) -> Vec<u8> {
    let length = bytes.len();
    match kind {
        5 => bytes.clear(),
        6 => return written(&[], &[]),
        7 => bytes.truncate(rng.below(length)),
        8 => bytes.truncate(length - rng.between(1, TRAILER)),
        9 => bytes.push(rng.pick(&[0, 0x4C])),
        10 => bytes.insert(rng.below(length), 0),
        11 => bytes[length - rng.between(1, 4)] ^= 1 << rng.below(8),
        12 => bytes[length - 4..].reverse(),
        20 => bytes[length - TRAILER..].fill(0),
        _ => spoil_trailer(rng, &mut bytes, kind),
    }
    bytes
}

/// The offset and the count of the trailer.
fn spoil_trailer(rng: &mut Rng, bytes: &mut [u8], kind: usize) {
    let at = bytes.len() - TRAILER;
    let number = |k: usize| u32::from_le_bytes(bytes[k..k + 4].try_into().expect("four bytes"));
    let (offset, count) = (number(at), number(at + 4));
    let one_off = rng.pick(&[1, u32::MAX]);
    let (offset, count) = match kind {
        13 => (offset.wrapping_add(one_off), count),
        14 => (offset, count.wrapping_add(one_off)),
        15 => (rng.pick(&[u32::MAX, 1 << 31]), rng.pick(&[u32::MAX, 0])),
        16 => (offset, count + rng.pick(&[1 << 30, 1 << 31, 3 << 30])),
        17 => (
            offset.wrapping_sub(12 * (count + 1)),
            count.wrapping_add(count + 1),
        ),
        18 => (offset + 12 * count, 0),
        _ => (offset.wrapping_sub(12), count + 1),
    };
    bytes[at..at + 4].copy_from_slice(&offset.to_le_bytes());
    bytes[at + 4..at + 8].copy_from_slice(&count.to_le_bytes());
}
