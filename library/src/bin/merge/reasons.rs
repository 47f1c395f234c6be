//! Why a pair is refused. The cause is the library's; this only looks for
//! the words, so a mistake here could make a message wrong, never a file.

use std::path::Path;

use besklaun::Refusal;

use crate::records::{fault, records, TRAILER};

/// A file without records: what is refused beside it is at fault itself.
const NO_RECORDS: [u8; TRAILER] = *b"\0\0\0\0\0\0\0\0TRAL";

type Named<'a> = (&'a Path, &'a [u8]);

pub fn refused(cause: Refusal, first: Named, second: Named) -> String {
    match cause {
        Refusal::BadTrailer | Refusal::BadRecord => at_fault(cause, first, second),
        Refusal::ProcessInBoth => shared(first, second),
        _ => "the merged file would be longer than 16,777,216 bytes".to_string(),
    }
}

/// The first of the two files that alone is refused for this cause, and why.
fn at_fault(cause: Refusal, first: Named, second: Named) -> String {
    let alone = |file: &Named| besklaun::merge(file.1, &NO_RECORDS, &mut []) == Err(cause);
    let (path, bytes) = [first, second].into_iter().find(alone).unwrap_or(second);
    format!("'{}': {}", path.display(), fault(cause, bytes))
}

fn shared(first: Named, second: Named) -> String {
    let mut seen = [None; 256];
    for (place, record) in records(first.1) {
        seen[usize::from(record[8])].get_or_insert(place);
    }
    for (place, record) in records(second.1) {
        if let Some(other) = seen[usize::from(record[8])] {
            return format!(
                "process {} is in both files: '{}' at byte {other}, '{}' at byte {place}",
                record[8],
                first.0.display(),
                second.0.display()
            );
        }
    }
    "a process is in both files".to_string()
}
