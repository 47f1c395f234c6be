//! The judge of a log (docs/JUDGE.md).

use std::fmt;

use crate::refusals::{outcome, Refusal};

/// What the judge says: refused for a cause, yes, or no.
#[derive(Clone, Copy, PartialEq, Eq, Debug)]
pub enum Verdict {
    Refused(Refusal),
    Yes,
    No,
}

impl fmt::Display for Verdict {
    fn fmt(&self, to: &mut fmt::Formatter) -> fmt::Result {
        match self {
            Verdict::Refused(cause) => write!(to, "refused {}", cause.number()),
            Verdict::Yes => write!(to, "yes"),
            Verdict::No => write!(to, "no"),
        }
    }
}

/// What Figure 1's object would have answered a call.
#[derive(Clone, Copy, PartialEq, Eq, Debug)]
pub enum Object {
    /// The value with which it began.
    Value,
    /// The words that the SC of this index offered.
    WordsOf(usize),
    Truth(bool),
}

/// Why the verdict is what it is. A call is told by its index in the log,
/// from 0 on.
#[derive(Clone, Copy, PartialEq, Eq, Debug)]
pub enum Reason {
    /// A yes, or a refusal that is about no call: 1, 2 or 16.
    None,
    /// Refused 4, 8 or 17: the call that it is about.
    Call(usize),
    /// Refused 8: the value is not of W words.
    Value,
    /// Condition 1: its kind is not 1, 2 or 3.
    Kind(usize),
    /// Condition 2: two calls of one process overlap.
    Overlap(usize, usize),
    /// Condition 3: two calls have one moment.
    Moment(usize, usize),
    /// Condition 4: its moment is not inside it.
    Outside(usize),
    /// Condition 5: the object answers otherwise.
    Answer { call: usize, object: Object },
    /// Condition 6: an SC or VL with no LL of its process before it.
    NoLl(usize),
}

impl Reason {
    /// The number of the condition that fails, 0 for none.
    pub fn condition(&self) -> u8 {
        match self {
            Reason::None | Reason::Call(_) | Reason::Value => 0,
            Reason::Kind(_) => 1,
            Reason::Overlap(..) => 2,
            Reason::Moment(..) => 3,
            Reason::Outside(_) => 4,
            Reason::Answer { .. } => 5,
            Reason::NoLl(_) => 6,
        }
    }
}

impl fmt::Display for Reason {
    fn fmt(&self, to: &mut fmt::Formatter) -> fmt::Result {
        match *self {
            Reason::None => write!(to, "no call is at fault"),
            Reason::Call(call) => write!(to, "call {call}"),
            Reason::Value => write!(to, "the value is not of W words"),
            Reason::Kind(call) => write!(to, "condition 1: call {call} has no kind"),
            Reason::Overlap(a, b) => write!(to, "condition 2: calls {a} and {b} overlap"),
            Reason::Moment(a, b) => write!(to, "condition 3: calls {a} and {b} have one moment"),
            Reason::Outside(call) => {
                write!(to, "condition 4: the moment of call {call} is outside it")
            }
            Reason::Answer { call, object } => {
                write!(
                    to,
                    "condition 5: call {call}: Figure 1's object answers {object}"
                )
            }
            Reason::NoLl(call) => write!(to, "condition 6: call {call} has no LL before it"),
        }
    }
}

impl fmt::Display for Object {
    fn fmt(&self, to: &mut fmt::Formatter) -> fmt::Result {
        match *self {
            Object::Value => write!(to, "the value"),
            Object::WordsOf(call) => write!(to, "the words of call {call}"),
            Object::Truth(truth) => write!(to, "{}", u8::from(truth)),
        }
    }
}

#[repr(C)]
struct Judgement {
    number: u8,
    yes: bool,
}

#[repr(C)]
struct Reasoned {
    number: u8,
    yes: bool,
    condition: u8,
    given: bool,
    truth: bool,
    call: usize,
    other: usize,
}

extern "C" {
    fn besklaun_judge(
        n: usize,
        w: usize,
        value: *const u64,
        value_count: usize,
        log: *const u64,
        log_count: usize,
    ) -> Judgement;

    fn besklaun_judge_with_reason(
        n: usize,
        w: usize,
        value: *const u64,
        value_count: usize,
        log: *const u64,
        log_count: usize,
    ) -> Reasoned;
}

/// Whether the moments of a log are a linearization of its calls: N, W, the
/// value with which the record begins, and 6 + W numbers for each call.
pub fn judge(n: usize, w: usize, value: &[u64], log: &[u64]) -> Verdict {
    // SAFETY: pointer and count are those of slices
    let said =
        unsafe { besklaun_judge(n, w, value.as_ptr(), value.len(), log.as_ptr(), log.len()) };
    verdict(said.number, said.yes)
}

fn verdict(number: u8, yes: bool) -> Verdict {
    match outcome(number) {
        Err(cause) => Verdict::Refused(cause),
        Ok(()) if yes => Verdict::Yes,
        Ok(()) => Verdict::No,
    }
}

/// The same, and why. A reason has a condition exactly where the verdict is
/// no.
pub fn judge_with_reason(n: usize, w: usize, value: &[u64], log: &[u64]) -> (Verdict, Reason) {
    let (values, numbers) = (value.len(), log.len());
    // SAFETY: pointer and count are those of slices
    let said =
        unsafe { besklaun_judge_with_reason(n, w, value.as_ptr(), values, log.as_ptr(), numbers) };
    // an LL is told by its kind, the second number of its call
    let kind = log.get(
        said.call
            .saturating_mul(w.saturating_add(6))
            .saturating_add(1),
    );
    (
        verdict(said.number, said.yes),
        reason(&said, kind == Some(&1)),
    )
}

fn reason(said: &Reasoned, is_ll: bool) -> Reason {
    let (call, other) = (said.call, said.other);
    match (said.condition, said.number) {
        (1, _) => Reason::Kind(call),
        (2, _) => Reason::Overlap(call, other),
        (3, _) => Reason::Moment(call, other),
        (4, _) => Reason::Outside(call),
        (5, _) => Reason::Answer {
            call,
            object: object(said, is_ll),
        },
        (6, _) => Reason::NoLl(call),
        (_, 8) if said.given => Reason::Value,
        (_, 4 | 8 | 17) => Reason::Call(call),
        _ => Reason::None,
    }
}

fn object(said: &Reasoned, is_ll: bool) -> Object {
    match (is_ll, said.given) {
        (true, true) => Object::Value,
        (true, false) => Object::WordsOf(said.other),
        (false, _) => Object::Truth(said.truth),
    }
}
