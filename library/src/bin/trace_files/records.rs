//! The bytes of a trace file, and the words for what is wrong with it. The
//! cause of a refusal is the library's; this only looks for the words, so a
//! mistake here could make a message wrong, never a file or a run.

use besklaun::Refusal;

pub const MOST_BYTES: usize = 16_777_216;
pub const TRAILER: usize = 12;
pub const RECORD: usize = 12;
pub const SIGN: &[u8] = b"TRAL";

pub fn number_at(bytes: &[u8], at: usize) -> u64 {
    (0..4).map(|i| u64::from(bytes[at + i]) << (8 * i)).sum()
}

/// The records of a file whose trailer is good, with their places.
pub fn records(bytes: &[u8]) -> impl Iterator<Item = (usize, &[u8])> {
    let end = bytes.len() - TRAILER;
    let offset = number_at(bytes, end) as usize;
    let places = (offset..).step_by(RECORD);
    places.zip(bytes[offset..end].chunks_exact(RECORD))
}

/// Why a file that is refused for its trailer or for a record is refused.
pub fn fault(cause: Refusal, bytes: &[u8]) -> String {
    match cause {
        Refusal::BadTrailer => bad_trailer(bytes),
        _ => bad_record(bytes),
    }
}

fn bad_trailer(bytes: &[u8]) -> String {
    let length = bytes.len();
    if length > MOST_BYTES {
        return "the file is longer than 16,777,216 bytes".to_string();
    }
    let Some(at) = length.checked_sub(TRAILER) else {
        return format!("the file has {length} bytes, and a trailer alone has 12");
    };
    if &bytes[at + 8..] != SIGN {
        return "the last four bytes are not 54 52 41 4C hex, the end of a trailer".to_string();
    }
    let (offset, count) = (number_at(bytes, at), number_at(bytes, at + 4));
    let end = offset + RECORD as u64 * count;
    format!("offset {offset} and count {count} end the records at byte {end}, but the trailer starts at byte {at}")
}

fn bad_record(bytes: &[u8]) -> String {
    let mut before = 0;
    for (place, record) in records(bytes) {
        if let Some(wrong) = wrong_in(record, before) {
            return format!("the record at byte {place}: {wrong}");
        }
        before = number_at(record, 0);
    }
    "a bad record".to_string()
}

fn wrong_in(record: &[u8], before: u64) -> Option<String> {
    let (tick, value, order) = (number_at(record, 0), number_at(record, 4), record[9]);
    if order > 3 {
        return Some(format!("its order is {order}, and 3 is the largest"));
    }
    if order != 2 && value != 0 {
        return Some(format!(
            "its value is {value}, but its order is {order}, and only 2, SC, has a value"
        ));
    }
    if record[10..] != [0, 0] {
        return Some("its last two bytes are not zero".to_string());
    }
    (tick < before).then(|| format!("its tick is {tick}, below {before}, the tick before it"))
}
