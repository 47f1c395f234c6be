//! Pairs about the longest file and the longest result, 16,777,216 bytes.

use super::file::{written, BoardRecord, MOST_BYTES, TRAILER};

/// The first file is so many zeros and a trailer.
pub struct Limit {
    pub zeros: u64,
    pub trailer: Vec<u8>,
    pub second: Vec<u8>,
    pub room: u64,
}

/// (16,777,216 - 12) / 12 is 1,398,100 and a third, so the longest result has
/// 1,398,100 records and the longest file four free bytes or more.
const MOST_RECORDS: u32 = 1_398_100;

pub fn limits() -> Vec<Limit> {
    let longest = MOST_BYTES as u32 - TRAILER as u32;
    let all = 12 * MOST_RECORDS;
    vec![
        // all records: right, and with one more in the other file 28
        limit(0, MOST_RECORDS, 0, u64::from(all) + 12),
        limit(4, MOST_RECORDS, 0, u64::from(all) + 11),
        limit(4, MOST_RECORDS, 1, u64::MAX),
        limit(16, MOST_RECORDS - 1, 1, u64::MAX),
        // longer than any file: 25
        limit(5, MOST_RECORDS, 0, u64::MAX),
        // no records: right up to the longest file
        limit(longest, 0, 1, 24),
        limit(longest + 1, 0, 1, 24),
    ]
}

fn limit(offset: u32, count: u32, others: usize, room: u64) -> Limit {
    let sign = &written(&[], &[])[8..];
    let other = BoardRecord {
        tick: 9,
        value: 0,
        process: 1,
        order: 1,
        zeros: [0, 0],
    };
    Limit {
        zeros: u64::from(offset) + 12 * u64::from(count),
        trailer: [&offset.to_le_bytes(), &count.to_le_bytes(), sign].concat(),
        second: written(&[], &vec![other; others]),
        room,
    }
}
