//! Megabytes a second of the proved merge and of a plain one in Rust, in the
//! same run, on two files of so many records each; the best of nine turns.
//! Status 1 where the proved one has less than 200 and takes more than twice
//! the time of the plain one.

mod plain;

use std::process::ExitCode;
use std::time::Instant;

use witness::boards::{written, BoardRecord};
use witness::rng::Rng;

const TURNS: usize = 9;

type Merge<E> = fn(&[u8], &[u8], &mut [u8]) -> Result<usize, E>;

fn main() -> ExitCode {
    println!("| Records of each file | Ticks | Proved, MB/s | Plain Rust, MB/s | Ratio of times |");
    println!("|---|---|---|---|---|");
    let mut fast = true;
    for count in [1_000, 10_000, 100_000, 699_000] {
        for (ticks, step) in [("all equal", 1), ("close", 4), ("far apart", 1000)] {
            fast &= row(count, ticks, step);
        }
    }
    ExitCode::from(u8::from(!fast))
}

/// One line; whether it is fast enough.
fn row(count: u32, ticks: &str, step: u32) -> bool {
    let rng = &mut Rng::stream(1, u64::from(count));
    let (a, b) = (file(rng, count, 0, step), file(rng, count, 8, step));
    let (proved, made) = seconds(besklaun::merge, &a, &b);
    let (plain, expected) = seconds(plain::merge, &a, &b);
    assert!(made == expected, "the two merges differ");
    let megabytes = (a.len() + b.len()) as f64 / 1e6;
    let (rate, ratio) = (megabytes / proved, proved / plain);
    let rate_of_plain = megabytes / plain;
    println!("| {count} | {ticks} | {rate:.0} | {rate_of_plain:.0} | {ratio:.2} |");
    rate >= 200.0 || ratio <= 2.0
}

fn seconds<E>(merge: Merge<E>, a: &[u8], b: &[u8]) -> (f64, Vec<u8>) {
    let mut out = vec![0; a.len() + b.len()];
    let mut best = f64::MAX;
    for _ in 0..TURNS {
        let began = Instant::now();
        let size = merge(a, b, &mut out);
        best = best.min(began.elapsed().as_secs_f64());
        assert!(size.is_ok(), "a right pair is refused");
    }
    (best, out)
}

/// Records of eight processes, each tick less than `step` after the one
/// before it.
fn file(rng: &mut Rng, count: u32, first_process: u8, step: u32) -> Vec<u8> {
    let mut tick = 0;
    let record = |_| {
        tick += rng.bits() as u32 % step;
        let order = rng.below(4) as u8;
        BoardRecord {
            tick,
            value: if order == 2 { rng.bits() as u32 } else { 0 },
            process: first_process + rng.below(8) as u8,
            order,
            zeros: [0, 0],
        }
    };
    let records: Vec<BoardRecord> = (0..count).map(record).collect();
    written(&[], &records)
}
