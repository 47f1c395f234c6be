//! Why a log is judged no: the first of the request's six conditions that
//! fails, in its order, at which calls, and for the last but one what Figure
//! 1's object answers. And which call a refusal is about.

use super::verdict::Call;
use super::{judge, Log, Verdict};
use crate::history::{Kind, Object};
use crate::machine::Reply;

/// The condition, from 1 on, or 0; the calls, by their index; the words or
/// the truth that the object answers.
#[derive(Clone, PartialEq, Eq, Debug, Default)]
pub struct Reason {
    pub condition: u8,
    pub calls: Vec<usize>,
    pub object: Vec<u64>,
}

pub fn reason(log: &Log) -> Reason {
    match judge(log) {
        Verdict::Yes => Reason::default(),
        Verdict::No => reason_of_no(log),
        Verdict::Refused(number) => Reason {
            calls: refused_call(number, log),
            ..Reason::default()
        },
    }
}

fn refused_call(number: u8, log: &Log) -> Vec<usize> {
    let width = 6 + log.w as usize;
    let first = |bad: &dyn Fn(&[u64]) -> bool| log.numbers.chunks(width).position(bad);
    let call = match number {
        4 => first(&|call| call[0] >= log.n),
        8 if log.value.len() as u64 == log.w => Some(log.numbers.len() / width),
        16 => Some(512),
        17 => first(&|call| call[3] <= call[2]),
        _ => None,
    };
    call.into_iter().collect()
}

fn reason_of_no(log: &Log) -> Reason {
    let width = 6 + log.w as usize;
    let calls: Vec<Call> = log.numbers.chunks_exact(width).map(Call::of).collect();
    let one = |bad: &dyn Fn(&Call) -> bool| calls.iter().position(bad).map(|call| vec![call]);
    let checks = [
        one(&|call| !(1..=3).contains(&call.kind)),
        two(&calls, |a, b| {
            a.process == b.process && a.answer >= b.start && b.answer >= a.start
        }),
        two(&calls, |a, b| a.moment == b.moment),
        one(&|call| call.moment <= call.start || call.moment > call.answer),
    ];
    for (calls, condition) in checks.into_iter().zip(1..) {
        if let Some(calls) = calls {
            return Reason {
                condition,
                calls,
                object: Vec::new(),
            };
        }
    }
    if let Some(found) = unlike(log, &calls) {
        return found;
    }
    let unled = one(&|call| {
        let leads =
            |ll: &Call| ll.kind == 1 && ll.process == call.process && ll.moment < call.moment;
        call.kind != 1 && !calls.iter().any(leads)
    });
    Reason {
        condition: 6,
        calls: unled.expect("a no has a reason"),
        object: Vec::new(),
    }
}

/// The first call with a later one that it is at fault with, and the first
/// such later one.
fn two(calls: &[Call], bad: impl Fn(&Call, &Call) -> bool) -> Option<Vec<usize>> {
    for (i, a) in calls.iter().enumerate() {
        for (j, b) in calls.iter().enumerate().skip(i + 1) {
            if bad(a, b) {
                return Some(vec![i, j]);
            }
        }
    }
    None
}

/// The first call in moment order that the object answers otherwise.
fn unlike(log: &Log, calls: &[Call]) -> Option<Reason> {
    let mut order: Vec<usize> = (0..calls.len()).collect();
    order.sort_by_key(|call| calls[*call].moment);
    let mut object = Object::new(&log.value, log.n as usize);
    for at in order {
        let call = &calls[at];
        let kind = match call.kind {
            1 => Kind::Load,
            2 => Kind::Store(call.words.to_vec()),
            _ => Kind::Validate,
        };
        let (told, logged) = match object.serve(call.process, &kind) {
            Reply::Loaded(words) => (words, call.words.to_vec()),
            Reply::Stored(truth) | Reply::Validated(truth) => {
                (vec![u64::from(truth)], vec![call.truth])
            }
        };
        if told != logged {
            return Some(Reason {
                condition: 5,
                calls: vec![at],
                object: told,
            });
        }
    }
    None
}
