//! Files to run on a bench of their own: the commands of one run, mostly
//! accepted, now and then with something wrong.

use super::file::{written, BoardRecord};
use super::listing::Numbers;
use super::pairs::{command, free_bytes};
use super::run::order_of;
use crate::machine::Bench;
use crate::rng::Rng;

pub struct Case {
    pub bench: Numbers,
    pub file: Vec<u8>,
    /// The bytes lent for the listing.
    pub room: usize,
}

/// Every hundredth has more records than a text may have entries.
const LONG: u64 = 100;

const MOST_SHORT: usize = 2_000;

pub fn case(seed: u64, index: u64) -> Case {
    let rng = &mut Rng::stream(seed, index);
    let (n, w) = (rng.between(1, 16), rng.pick(&[1, 1, 1, 2, 3, 8, 64]));
    let initial = rng.pick(&[0, 5, 300, u32::MAX]);
    let long = index % LONG == LONG - 1;
    let count = match long {
        true => 61_000 + rng.below(9_000),
        false => rng.pick(&[0, 1, 20, 60, 120, 300, MOST_SHORT]),
    };
    let records = records(rng, n, w, initial, count);
    let mut case = Case {
        bench: Numbers {
            n: n as u64,
            w: w as u64,
            initial,
        },
        file: written(&free_bytes(rng), &records),
        room: usize::MAX,
    };
    if !long && rng.once_in(3) {
        spoil(rng, &mut case);
    }
    case
}

/// Commands that the bench accepts, in a short run now and then another.
fn records(rng: &mut Rng, n: usize, w: usize, initial: u32, count: usize) -> Vec<BoardRecord> {
    let value = vec![u64::from(initial); w];
    let mut bench = Bench::set_up(n as u64, w as u64, &value, None).expect("a right set-up");
    let mut tick = rng.pick(&[0, 1, 1000]);
    let patience = rng.between(1, 30);
    let mut process = rng.below(n);
    let mut records = Vec::new();
    while records.len() < count {
        if rng.once_in(patience) {
            process = rng.below(n);
        }
        let mut before = bench.clone();
        let record = command(rng, &mut bench, process, tick);
        let order = order_of(&record, w);
        let refused = before
            .command_on(u64::from(record.process), 0, &order)
            .is_err();
        if refused && (count > MOST_SHORT || !rng.once_in(3)) {
            bench = before;
            continue;
        }
        records.push(record);
        tick += rng.pick(&[0, 1, 1, 1, 2, 300]);
    }
    records
}

fn spoil(rng: &mut Rng, case: &mut Case) {
    let length = case.file.len();
    match rng.below(9) {
        0 => case.bench.n = rng.pick(&[0, 17, 1 << 31]),
        1 => case.bench.w = rng.pick(&[0, 65, 1 << 31]),
        2 => case.file.truncate(rng.below(length)),
        3 | 4 => case.file[rng.below(length)] ^= 1 << rng.below(8),
        5 => case.bench.n = rng.between(1, 16) as u64,
        6 => case.room = rng.below(2_000),
        7 => case.room = 743 + rng.below(3),
        _ => case.room = 744 + rng.below(200),
    }
}
