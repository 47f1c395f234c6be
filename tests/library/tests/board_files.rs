//! Merges and runs: what 02's CR 12 says of small files, and the separately
//! written merge and run on thousands of files and at the limits. All bytes
//! lent are compared, those that must stay too.

use std::collections::BTreeMap;
use std::thread;

use besklaun::{merge, run_board, BoardRun, Refusal};
use witness::boards::{self as separately, case, limits, pair, Numbers};
use witness::schedule::LISTING;

/// What stands in the bytes lent before a merge.
const BEFORE: u8 = 0xa5;

/// Room for any result, and for one that is too long.
const ROOM: u64 = 17_000_000;

fn record(tick: u32, value: u32, process: u8, order: u8) -> Vec<u8> {
    let numbers = [tick.to_le_bytes(), value.to_le_bytes()];
    [&numbers.concat()[..], &[process, order, 0, 0]].concat()
}

/// "free bytes, then records of 12 bytes, then a trailer of 12 bytes"
fn file(free: &[u8], records: &[Vec<u8>]) -> Vec<u8> {
    let numbers = [free.len() as u32, records.len() as u32].map(u32::to_le_bytes);
    let sign = [0x54, 0x52, 0x41, 0x4c];
    [free, &records.concat(), &numbers.concat(), &sign].concat()
}

fn process_0() -> Vec<u8> {
    let records = [record(1, 0, 0, 1), record(3, 0, 0, 0), record(3, 9, 0, 2)];
    file(b"", &records)
}

fn process_1() -> Vec<u8> {
    file(b"free", &[record(2, 0, 1, 1), record(3, 0, 1, 3)])
}

/// "by tick, the first file first at equal ticks, with no free bytes"
#[test]
fn by_tick() {
    let records = [
        record(1, 0, 0, 1),
        record(2, 0, 1, 1),
        record(3, 0, 0, 0),
        record(3, 9, 0, 2),
        record(3, 0, 1, 3),
    ];
    let mut out = [BEFORE; 73];
    assert_eq!(merge(&process_0(), &process_1(), &mut out), Ok(72));
    assert_eq!(out[..72], file(b"", &records));
    assert_eq!(out[72], BEFORE);
}

#[test]
fn causes_in_their_order() {
    let (first, second) = (process_0(), process_1());
    let falls = file(b"", &[record(2, 0, 0, 0), record(1, 0, 0, 0)]);
    let same = file(b"", &[record(7, 0, 0, 0)]);
    assert_eq!(
        merge(&falls, &second[1..], &mut []),
        Err(Refusal::BadTrailer)
    );
    assert_eq!(
        merge(&second[1..], &falls, &mut []),
        Err(Refusal::BadTrailer)
    );
    assert_eq!(merge(&same, &falls, &mut []), Err(Refusal::BadRecord));
    assert_eq!(merge(&falls, &same, &mut []), Err(Refusal::BadRecord));
    assert_eq!(merge(&first, &same, &mut []), Err(Refusal::ProcessInBoth));
    assert_eq!(
        merge(&first, &second, &mut [BEFORE; 71]),
        Err(Refusal::TooLittleRoom)
    );
}

#[test]
fn empty_slices() {
    let none = file(b"", &[]);
    assert_eq!(merge(&[], &[], &mut []), Err(Refusal::BadTrailer));
    assert_eq!(merge(&none, &[], &mut []), Err(Refusal::BadTrailer));
    assert_eq!(merge(&none, &none, &mut []), Err(Refusal::TooLittleRoom));
}

#[test]
fn files_without_records() {
    let (first, none) = (process_0(), file(b"nothing here", &[]));
    for (a, b) in [(&first, &none), (&none, &first)] {
        let mut out = vec![BEFORE; first.len()];
        assert_eq!(merge(a, b, &mut out), Ok(first.len()));
        assert_eq!(out, first);
    }
}

#[test]
fn files_cut_anywhere() {
    let (first, second) = (process_0(), process_1());
    for cut in 0..first.len() {
        alike(&first[..cut], &second, 72);
        alike(&second, &first[..cut], 72);
        alike(&first[cut..], &second, 72);
    }
}

#[test]
fn as_the_separately_written_merge() {
    let mut seen = BTreeMap::new();
    for index in 0..20_000 {
        let pair = pair(13, index);
        let number = alike(&pair.first, &pair.second, pair.room);
        *seen.entry(number).or_insert(0) += 1;
    }
    let numbers: Vec<_> = seen.keys().copied().collect();
    assert_eq!(numbers, [0, 25, 26, 27, 28], "{seen:?}");
    assert!(seen.values().all(|times| *times > 100), "{seen:?}");
}

/// "a file over 16,777,216 bytes", "a result over 16,777,216 bytes"
#[test]
fn at_the_limits() {
    let numbers = limits().into_iter().map(|limit| {
        let mut first = vec![0; limit.zeros as usize];
        first.extend(limit.trailer);
        alike(&first, &limit.second, limit.room)
    });
    assert_eq!(numbers.collect::<Vec<_>>(), [0, 28, 28, 0, 25, 0, 25]);
}

/// The number and every byte lent are the same; the number.
fn alike(first: &[u8], second: &[u8], room: u64) -> u8 {
    let mut out = vec![BEFORE; room.min(ROOM) as usize];
    let mut expected = out.clone();
    let separately = separately::merge(first, second, room);
    if let Ok(bytes) = &separately {
        expected[..bytes.len()].copy_from_slice(bytes);
    }
    let said = merge(first, second, &mut out);
    let said = said.map_err(Refusal::number);
    assert_eq!(said, separately.map(|bytes| bytes.len()));
    assert!(out == expected, "other bytes");
    said.err().unwrap_or(0)
}

/// The stack that besklaun.h names.
#[test]
fn stack() {
    let (first, second) = (process_0(), process_1());
    let small = thread::Builder::new().stack_size(16 * 1024);
    let merged = small.spawn(move || merge(&first, &second, &mut [0; 72]));
    assert_eq!(merged.unwrap().join().unwrap(), Ok(72));
}

/// A file run on a bench of its own: what it returns, and what it prints.
fn ran(n: usize, w: usize, initial: u32, file: &[u8], room: usize) -> (BoardRun, Vec<u8>) {
    let mut listing = vec![BEFORE; room];
    let run = run_board(n, w, initial, file, &mut listing);
    assert!(listing[run.written..].iter().all(|byte| *byte == BEFORE));
    listing.truncate(run.written);
    (run, listing)
}

/// An LL of one word, 4W+6 steps, and an SC of 9, 2W+4.
fn load_and_store() -> Vec<u8> {
    let steps = |count| vec![record(1, 0, 0, 0); count];
    let parts = [
        vec![record(1, 0, 0, 1)],
        steps(10),
        vec![record(1, 9, 0, 2)],
        steps(6),
    ];
    file(b"free", &parts.concat())
}

fn returned(number: u8, done: usize, written: usize) -> BoardRun {
    BoardRun {
        outcome: Refusal::try_from(number).map_or(Ok(()), Err),
        done,
        written,
    }
}

#[test]
fn a_run() {
    let (run, listing) = ran(1, 1, 5, &load_and_store(), 800);
    assert_eq!(listing, b"0 L 10 5\n0 S 6 1\nend 18\n");
    assert_eq!(run, returned(0, 18, listing.len()));
    let (run, listing) = ran(1, 2, 5, &load_and_store(), 800);
    assert_eq!(listing, b"refused 5 11\n");
    assert_eq!(run, returned(5, 11, listing.len()));
}

/// 14 at the start, then the set-up, then the file, then before each command
/// 14.
#[test]
fn causes_of_a_run() {
    let whole = load_and_store();
    assert_eq!(ran(0, 0, 5, &[], 743).0, returned(14, 0, 0));
    assert_eq!(ran(0, 0, 5, &[], 744).1, b"refused 1 0\n");
    assert_eq!(ran(16, 65, 5, &[], 744).1, b"refused 2 0\n");
    assert_eq!(ran(usize::MAX, 1, 5, &[], 744).1, b"refused 1 0\n");
    assert_eq!(ran(16, 64, u32::MAX, &[], 744).1, b"refused 25 0\n");
    let falls = file(b"", &[record(2, 0, 0, 1), record(1, 0, 0, 0)]);
    assert_eq!(ran(1, 1, 5, &falls, 744).1, b"refused 26 0\n");
    assert_eq!(ran(1, 1, 5, &whole, 752).1, b"0 L 10 5\nrefused 14 11\n");
    assert_eq!(ran(1, 1, 5, &whole, 753).0.outcome, Ok(()));
    assert_eq!(run_board(1, 1, 5, &[], &mut []), returned(14, 0, 0));
}

#[test]
fn as_the_separately_written_run() {
    let mut seen = BTreeMap::new();
    let mut most = 0;
    for index in 0..1_000 {
        let case = case(14, index);
        let Numbers { n, w, initial } = case.bench;
        let room = case.room.min(case.file.len() + LISTING.room);
        let mut expected = vec![BEFORE; room];
        let listed = separately::run_listed(case.bench, &case.file, &LISTING, &mut expected);
        let mut listing = vec![BEFORE; room];
        let run = run_board(n as usize, w as usize, initial, &case.file, &mut listing);
        let told = returned(listed.number, listed.done as usize, listed.written);
        assert_eq!(run, told, "case {index}");
        assert!(listing == expected, "case {index}: other bytes");
        *seen.entry(run.number()).or_insert(0) += 1;
        most = most.max(run.done);
    }
    let numbers: Vec<_> = seen.keys().copied().collect();
    assert_eq!(numbers, [0, 1, 2, 4, 5, 6, 7, 14, 25, 26], "{seen:?}");
    assert!(most > 60_000, "{most}");
}

/// The longest file: a start, and then a step or another start of process 0.
#[test]
fn the_longest_run() {
    let all = 1_398_100;
    let call = [vec![record(0, 0, 0, 1)], vec![record(0, 0, 0, 0); 10]].concat();
    let records: Vec<_> = call.into_iter().cycle().take(all).collect();
    let longest = file(b"free", &records);
    let (run, listing) = ran(1, 1, 5, &longest, longest.len() + 744);
    assert_eq!((run.outcome, run.done), (Ok(()), all));
    let (lines, last) = listing.split_at(listing.len() - b"end 1398100\n".len());
    assert_eq!(last, b"end 1398100\n");
    assert_eq!(lines, b"0 L 10 5\n".repeat(all / 11));
}

/// The stack that besklaun.h names.
#[test]
fn stack_of_a_run() {
    let small = thread::Builder::new().stack_size(128 * 1024);
    let ran = small.spawn(|| run_board(16, 64, 5, &load_and_store(), &mut [0; 744]));
    assert_eq!(
        ran.unwrap().join().unwrap().outcome,
        Err(Refusal::StartAtBusy)
    );
}
