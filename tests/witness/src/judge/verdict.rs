//! "It says yes exactly when ..."

use std::collections::HashSet;

use super::Log;
use crate::history::{Kind, Object};
use crate::machine::Reply;

pub const MOST_CALLS: usize = 512;

#[derive(Clone, Copy, PartialEq, Eq, Debug)]
pub enum Verdict {
    Refused(u8),
    Yes,
    No,
}

pub fn judge(log: &Log) -> Verdict {
    if let Some(number) = refusal(log) {
        return Verdict::Refused(number);
    }
    let width = 6 + log.w as usize;
    let calls: Vec<Call> = log.numbers.chunks_exact(width).map(Call::of).collect();
    if earns_yes(log, &calls) {
        Verdict::Yes
    } else {
        Verdict::No
    }
}

/// "16 for more than 512 calls, 17 for an answer place not after its start
/// place; over the whole log after 1, 2, 4 and 8, in that order". A call
/// that is cut off is a call, whose process comes first, and lacks words.
fn refusal(log: &Log) -> Option<u8> {
    if log.n < 1 || log.n > 16 {
        return Some(1);
    }
    if log.w < 1 || log.w > 64 {
        return Some(2);
    }
    let width = 6 + log.w as usize;
    if log.numbers.chunks(width).any(|call| call[0] >= log.n) {
        return Some(4);
    }
    let cut = !log.numbers.len().is_multiple_of(width);
    if log.value.len() as u64 != log.w || cut {
        return Some(8);
    }
    if log.numbers.len() > MOST_CALLS * width {
        return Some(16);
    }
    if log.numbers.chunks(width).any(|call| call[3] <= call[2]) {
        return Some(17);
    }
    None
}

pub(super) struct Call<'a> {
    pub process: usize,
    pub kind: u64,
    pub start: u64,
    pub answer: u64,
    pub truth: u64,
    pub moment: u64,
    pub words: &'a [u64],
}

impl Call<'_> {
    pub fn of(numbers: &[u64]) -> Call<'_> {
        Call {
            process: numbers[0] as usize,
            kind: numbers[1],
            start: numbers[2],
            answer: numbers[3],
            truth: numbers[4],
            moment: numbers[5],
            words: &numbers[6..],
        }
    }
}

fn earns_yes(log: &Log, calls: &[Call]) -> bool {
    let moments: HashSet<u64> = calls.iter().map(|call| call.moment).collect();
    calls.iter().all(|call| (1..=3).contains(&call.kind))
        && (0..log.n as usize).all(|p| take_turns(calls, p))
        && moments.len() == calls.len()
        && calls
            .iter()
            .all(|call| call.start < call.moment && call.moment <= call.answer)
        && in_moment_order(log, calls)
}

/// The calls of one process, one after the other, none touching the next.
fn take_turns(calls: &[Call], process: usize) -> bool {
    let mut spans: Vec<(u64, u64)> = calls
        .iter()
        .filter(|call| call.process == process)
        .map(|call| (call.start, call.answer))
        .collect();
    spans.sort_unstable();
    spans.windows(2).all(|two| two[0].1 < two[1].0)
}

/// Figure 1's object answers each call alike, and no SC or VL comes before
/// the first LL of its process.
fn in_moment_order(log: &Log, calls: &[Call]) -> bool {
    let mut order: Vec<&Call> = calls.iter().collect();
    order.sort_unstable_by_key(|call| call.moment);
    let mut object = Object::new(&log.value, log.n as usize);
    let mut linked = vec![false; log.n as usize];
    order.iter().all(|call| {
        let had_ll = linked[call.process];
        let told = |truth: bool| call.truth == u64::from(truth);
        match call.kind {
            1 => {
                linked[call.process] = true;
                let words = Reply::Loaded(call.words.to_vec());
                object.serve(call.process, &Kind::Load) == words
            }
            2 => match object.serve(call.process, &Kind::Store(call.words.to_vec())) {
                Reply::Stored(truth) => had_ll && told(truth),
                _ => false,
            },
            _ => match object.serve(call.process, &Kind::Validate) {
                Reply::Validated(truth) => had_ll && told(truth),
                _ => false,
            },
        }
    })
}
