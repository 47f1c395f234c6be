//! A file run on record 0 of a station, as it stands: no set-up is made.

use super::file::{check_records, records_in, BoardRecord};
use crate::machine::{Bench, Order};

/// The number of the first refusal, 0 for none, and the commands done.
#[derive(Clone, Copy, PartialEq, Eq, Debug)]
pub struct FileRun {
    pub number: u8,
    pub done: u64,
}

/// 25 and 26 come before the first command.
pub fn run_file(bench: &mut Bench, file: &[u8]) -> FileRun {
    let checked = records_in(file).and_then(|records| {
        check_records(&records)?;
        Ok(records)
    });
    match checked {
        Err(number) => FileRun { number, done: 0 },
        Ok(records) => run_records(bench, &records),
    }
}

fn run_records(bench: &mut Bench, records: &[BoardRecord]) -> FileRun {
    for (done, record) in (0..).zip(records) {
        let order = order_of(record, bench.words());
        if let Err(number) = bench.command_on(u64::from(record.process), 0, &order) {
            return FileRun { number, done };
        }
    }
    FileRun {
        number: 0,
        done: records.len() as u64,
    }
}

/// "an SC's value in all W words"
pub(super) fn order_of(record: &BoardRecord, w: usize) -> Order {
    match record.order {
        0 => Order::Step,
        1 => Order::Load,
        2 => Order::Store(vec![u64::from(record.value); w]),
        _ => Order::Validate,
    }
}
