//! A file run on a bench of its own, in one of the two forms in which a run
//! can be written down.

use super::file::{check_records, records_in, BoardRecord};
use super::run::order_of;
use crate::machine::Bench;
use crate::schedule::{last_line, Entry, Form, Lines};

/// The number of the refusal, 0 for none, the commands done and the bytes
/// written.
#[derive(Clone, Copy, PartialEq, Eq, Debug)]
pub struct Listed {
    pub number: u8,
    pub done: u64,
    pub written: usize,
}

/// The numbers of the set-up.
#[derive(Clone, Copy, PartialEq, Eq, Debug)]
pub struct Numbers {
    pub n: u64,
    pub w: u64,
    pub initial: u32,
}

/// 14 at the start, which writes nothing; then the set-up's refusals, 25 and
/// 26, and before each command 14.
pub fn run_listed(bench: Numbers, file: &[u8], form: &Form, lent: &mut [u8]) -> Listed {
    if lent.len() < form.room {
        return Listed {
            number: 14,
            done: 0,
            written: 0,
        };
    }
    let mut lines = Lines::over(lent);
    let (number, done) = match prepare(bench, file) {
        Err(number) => (number, 0),
        Ok((bench, records)) => carry_out(bench, &records, form, &mut lines),
    };
    lines.line(&last_line(number, done));
    Listed {
        number,
        done,
        written: lines.written(),
    }
}

fn prepare(bench: Numbers, file: &[u8]) -> Result<(Bench, Vec<BoardRecord>), u8> {
    // the set-up refuses any other W before it looks at the value
    let value = vec![u64::from(bench.initial); bench.w.min(64) as usize];
    let bench = Bench::set_up(bench.n, bench.w, &value, None)?;
    let records = records_in(file)?;
    check_records(&records)?;
    Ok((bench, records))
}

fn carry_out(
    mut bench: Bench,
    records: &[BoardRecord],
    form: &Form,
    lines: &mut Lines,
) -> (u8, u64) {
    for (done, record) in (0..).zip(records) {
        if lines.left() < form.room {
            return (14, done);
        }
        let order = order_of(record, bench.words());
        let process = u64::from(record.process);
        let answer = match bench.command_on(process, 0, &order) {
            Ok(answer) => answer,
            Err(number) => return (number, done),
        };
        let entry = Entry {
            number: done + 1,
            process,
            order: &order,
            seen: bench.seen(),
            answer: answer.as_ref(),
        };
        if let Some(line) = (form.line)(&entry) {
            lines.line(&line);
        }
    }
    (0, records.len() as u64)
}

/// What is printed of a run that has room.
pub fn printed(bench: Numbers, file: &[u8], form: &Form) -> (Listed, Vec<u8>) {
    let mut lent = vec![0; file.len() * 12 + form.room];
    let listed = run_listed(bench, file, form, &mut lent);
    lent.truncate(listed.written);
    (listed, lent)
}
