//! Board traces (02, CR 12), by its sentences.

use witness::boards::{merge, pair, printed, records_in, run_file, run_listed, written};
use witness::boards::{BoardRecord, FileRun, Listed, Numbers};
use witness::machine::{Bench, Order};
use witness::schedule::{LISTING, TRACE};
use witness::station::replies;

const ROOM: u64 = 1_000;

fn record(tick: u32, process: u8, order: u8, value: u32) -> BoardRecord {
    BoardRecord {
        tick,
        value,
        process,
        order,
        zeros: [0, 0],
    }
}

/// A step.
fn step(tick: u32, process: u8) -> BoardRecord {
    record(tick, process, 0, 0)
}

fn file(records: &[BoardRecord]) -> Vec<u8> {
    written(&[], records)
}

/// The bytes of a merge, all of them written out: tick, value, process,
/// order, two zero bytes; then offset, count and 54 52 41 4C.
#[test]
fn a_merge_by_hand() {
    let first = [
        &[9, 9, 9][..],
        &[1, 0, 0, 0, 0, 0, 0, 0, 0, 1, 0, 0],
        &[0, 1, 0, 0, 7, 0, 0, 128, 0, 2, 0, 0],
        &[3, 0, 0, 0, 2, 0, 0, 0, 0x54, 0x52, 0x41, 0x4C],
    ]
    .concat();
    let second = [
        &[2, 0, 0, 0, 0, 0, 0, 0, 255, 3, 0, 0][..],
        &[0, 0, 0, 0, 1, 0, 0, 0, 0x54, 0x52, 0x41, 0x4C],
    ]
    .concat();
    let both = [
        &[1, 0, 0, 0, 0, 0, 0, 0, 0, 1, 0, 0][..],
        &[2, 0, 0, 0, 0, 0, 0, 0, 255, 3, 0, 0],
        &[0, 1, 0, 0, 7, 0, 0, 128, 0, 2, 0, 0],
        &[0, 0, 0, 0, 3, 0, 0, 0, 0x54, 0x52, 0x41, 0x4C],
    ]
    .concat();
    assert_eq!(merge(&first, &second, 48), Ok(both.clone()));
    assert_eq!(merge(&second, &first, 48), Ok(both));
    assert_eq!(merge(&first, &second, 47), Err(28));
}

/// "the first file first at equal ticks", and each file's own order is kept.
#[test]
fn equal_ticks() {
    let (first, second) = (
        [step(5, 0), record(5, 0, 1, 0), step(6, 0)],
        [step(4, 1), record(5, 1, 3, 0), step(5, 1), step(7, 1)],
    );
    let [a, b, c] = first;
    let [d, e, f, g] = second;
    let merged = merge(&file(&first), &file(&second), ROOM);
    assert_eq!(merged, Ok(file(&[d, a, b, e, f, c, g])));
    let other = merge(&file(&second), &file(&first), ROOM);
    assert_eq!(other, Ok(file(&[d, e, f, a, b, c, g])));
}

#[test]
fn empty_traces() {
    let none = file(&[]);
    assert_eq!(none.len(), 12);
    assert_eq!(merge(&none, &none, 12), Ok(none.clone()));
    assert_eq!(merge(&none, &none, 11), Err(28));
    assert_eq!(merge(&written(&[1, 2], &[]), &none, 12), Ok(none));
}

/// Every file cut short breaks its trailer, unless the cut leaves one.
#[test]
fn bad_trailers() {
    let (right, none) = (file(&[step(1, 0), step(2, 0)]), file(&[]));
    for length in 0..right.len() {
        assert_eq!(merge(&right[..length], &none, ROOM), Err(25));
        assert_eq!(merge(&none, &right[..length], ROOM), Err(25));
    }
    for at in 24..right.len() {
        let mut bad = right.clone();
        bad[at] ^= 1;
        assert_eq!(merge(&bad, &none, ROOM), Err(25), "byte {at}");
    }
    let longer = [&right[..], &[0]].concat();
    assert_eq!(merge(&longer, &none, ROOM), Err(25));
    let before = [&[0], &right[..]].concat();
    assert_eq!(merge(&before, &none, ROOM), Err(25));
}

/// 2 + 2^30 records of 12 bytes would come to the same number modulo 2^32.
#[test]
fn offset_and_count_are_not_taken_modulo() {
    let mut bad = file(&[step(1, 0), step(2, 0)]);
    bad[31] = 0x40;
    assert_eq!(records_in(&bad), Err(25));
}

#[test]
fn bad_records() {
    let none = file(&[]);
    let zeros = |zeros| BoardRecord {
        zeros,
        ..step(1, 0)
    };
    let bad = [
        record(1, 0, 4, 0),
        record(1, 0, 255, 0),
        zeros([1, 0]),
        zeros([0, 1]),
        record(1, 0, 0, 1),
        record(1, 0, 1, 256),
        record(1, 0, 3, 1 << 31),
        step(2, 0),
    ];
    for bad in bad {
        let spoilt = file(&[step(1, 0), bad, step(1, 0)]);
        assert_eq!(merge(&spoilt, &none, ROOM), Err(26), "{bad:?}");
        assert_eq!(merge(&none, &spoilt, ROOM), Err(26), "{bad:?}");
    }
    let right = [0, 1, 2, 3].map(|order| record(1, 255, order, 0));
    assert_eq!(merge(&file(&right), &none, ROOM), Ok(file(&right)));
    let value = file(&[record(u32::MAX, 0, 2, u32::MAX)]);
    assert_eq!(merge(&value, &none, ROOM), Ok(value));
}

/// Each number over both files before the next.
#[test]
fn numbers_in_order() {
    let shared = file(&[step(1, 0)]);
    let bad_record = file(&[record(1, 0, 4, 0)]);
    let bad_trailer = [0; 12];
    assert_eq!(merge(&bad_record, &bad_trailer, 0), Err(25));
    assert_eq!(merge(&bad_trailer, &bad_record, 0), Err(25));
    assert_eq!(merge(&shared, &bad_record, 0), Err(26));
    assert_eq!(merge(&bad_record, &shared, 0), Err(26));
    assert_eq!(merge(&shared, &shared, 0), Err(27));
    assert_eq!(merge(&shared, &file(&[step(1, 1)]), 0), Err(28));
}

fn bench() -> Bench {
    Bench::set_up(2, 2, &[5, 5], None).expect("a right set-up")
}

/// Case A with two words, as a board would log it.
#[test]
fn a_run() {
    let mut records = vec![record(0, 0, 1, 0)];
    records.extend((1..15).map(|tick| step(tick, 0)));
    records.push(record(15, 0, 2, 7));
    records.extend((16..24).map(|tick| step(tick, 0)));
    records.push(record(24, 1, 1, 0));
    let (mut here, mut there) = (bench(), bench());
    let run = run_file(&mut here, &written(&[1], &records));
    assert_eq!(
        run,
        FileRun {
            number: 0,
            done: 25
        }
    );
    // LL in 4W+6 steps, SC in 2W+4, each with its start
    let orders = [
        (0, Order::Load, 14),
        (0, Order::Store(vec![7, 7]), 8),
        (1, Order::Load, 0),
    ];
    for (p, order, steps) in orders {
        there.command(p, &order).expect("a start");
        for _ in 0..steps {
            there.command(p, &Order::Step).expect("a step");
        }
    }
    assert!(here.same_memory(&there));
    assert!(here.is_idle(0) && !here.is_idle(1));
}

/// "up to the first refusal"; 25 and 26 before the first command.
#[test]
fn a_run_ends() {
    let start = record(1, 0, 1, 0);
    let refused = [
        (record(1, 2, 0, 0), 4),
        (record(1, 255, 1, 0), 4),
        (record(1, 0, 1, 0), 5),
        (step(1, 1), 6),
        (record(1, 1, 2, 9), 7),
        (record(1, 1, 3, 0), 7),
    ];
    let mut started = bench();
    started.command(0, &Order::Load).expect("a start");
    for (record, number) in refused {
        let mut bench = bench();
        let run = run_file(&mut bench, &file(&[start, record, step(1, 0)]));
        assert_eq!(run, FileRun { number, done: 1 });
        assert!(bench.same_memory(&started));
    }
    let mut bench = bench();
    let nothing = |number| FileRun { number, done: 0 };
    assert_eq!(run_file(&mut bench, &[]), nothing(25));
    assert_eq!(
        run_file(&mut bench, &file(&[start, step(0, 0)])),
        nothing(26)
    );
    assert_eq!(run_file(&mut bench, &file(&[])), nothing(0));
    assert!(bench.same_memory(&self::bench()));
}

/// "Every record comes out once, and each file's own order is kept", ticks
/// never fall, and a merge with an empty trace only drops free bytes.
#[test]
fn merges_of_random_pairs() {
    let mut merges = 0;
    for index in 0..2_000 {
        let pair = pair(4, index);
        let Ok(merged) = merge(&pair.first, &pair.second, u64::MAX) else {
            continue;
        };
        merges += 1;
        let [first, second, all] =
            [&pair.first, &pair.second, &merged].map(|file| records_in(file).expect("a trailer"));
        let of = |part: &[BoardRecord]| -> Vec<BoardRecord> {
            let belongs = |record: &&BoardRecord| part.iter().any(|r| r.process == record.process);
            all.iter().filter(belongs).copied().collect()
        };
        assert_eq!(all.len(), first.len() + second.len());
        assert_eq!((of(&first), of(&second)), (first, second));
        assert!(all.windows(2).all(|two| two[0].tick <= two[1].tick));
        assert_eq!(merge(&merged, &file(&[]), u64::MAX), Ok(merged.clone()));
    }
    assert!(merges > 800, "{merges}");
}

/// A list's open call on another record is what a step of the file steps.
#[test]
fn a_step_steps_whatever_call_is_open() {
    let mut others = 0;
    for index in 0..400 {
        let pair = pair(6, index);
        let mut bench = replies(&pair.list).bench.expect("a right set-up");
        let busy = |p: usize| bench.processes()[p].record > 0;
        let Some(p) = (0..bench.processes().len()).find(|p| busy(*p)) else {
            continue;
        };
        others += 1;
        let count = bench.processes()[p].count;
        let run = run_file(&mut bench, &file(&[step(0, p as u8)]));
        assert_eq!((run.number, run.done), (0, 1));
        assert!(bench.is_idle(p) || bench.processes()[p].count == count + 1);
    }
    assert!(others > 20, "{others}");
}

const ONE_OF_ONE: Numbers = Numbers {
    n: 1,
    w: 1,
    initial: 5,
};

/// An LL of one word takes 4W+6 steps.
fn a_load() -> Vec<BoardRecord> {
    [vec![record(1, 0, 1, 0)], vec![step(1, 0); 10]].concat()
}

/// "The listing has a line for each answer", and its last line.
#[test]
fn a_listing() {
    let refused = [a_load(), vec![step(1, 0)]].concat();
    let (listed, bytes) = printed(ONE_OF_ONE, &file(&refused), &LISTING);
    assert_eq!(bytes, b"0 L 10 5\nrefused 6 11\n");
    let told = Listed {
        number: 6,
        done: 11,
        written: bytes.len(),
    };
    assert_eq!(listed, told);
    let (_, trace) = printed(ONE_OF_ONE, &file(&refused), &TRACE);
    assert!(trace.starts_with(b"1 0 start L\n2 0 1 Help[0] write 1 2 links cleared\n"));
}

/// 14, then the set-up, then 25 and 26, then 14 before each command.
#[test]
fn causes_of_a_listing() {
    let number = |n, w, file: &[u8], room: usize| {
        let bench = Numbers { n, w, initial: 5 };
        run_listed(bench, file, &LISTING, &mut vec![0; room]).number
    };
    let falls = file(&[step(2, 0), step(1, 0)]);
    let two = file(&[a_load(), a_load()].concat());
    assert_eq!(number(0, 0, &[], 743), 14);
    assert_eq!(number(0, 0, &[], 744), 1);
    assert_eq!(number(1, 65, &[], 744), 2);
    assert_eq!(number(1, 1, &[], 744), 25);
    assert_eq!(number(1, 1, &falls, 744), 26);
    assert_eq!(number(1, 1, &two, 752), 14);
    assert_eq!(number(1, 1, &two, 753), 0);
}
