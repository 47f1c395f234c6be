//! CR 8's order by brute force: calls of random runs, and the search for an
//! order in which Figure 1's object gives the same answers. A WLL that names
//! a process is an LL whose value is not compared; an open SC whose CAS on
//! the header succeeded answered true at its last step; other open calls
//! count for nothing.

use super::bench::Bench;
use super::command::{Answer, Reply};
use super::wrong::Wrong;
use crate::history::{Kind, Object};
use crate::machine::{self, Order};
use crate::rng::Rng;

#[derive(Clone, PartialEq, Eq, Debug)]
pub enum Outcome {
    Answered(Reply),
    Open,
}

/// Places count commands, the first one being 1. The end is the answer, or
/// the last step of an open call, or its start if it made none.
#[derive(Clone, PartialEq, Eq, Debug)]
pub struct Call {
    pub process: usize,
    pub kind: Kind,
    pub start: u64,
    pub end: u64,
    pub outcome: Outcome,
    /// Whether the CAS on the header was done: an open SC that counts.
    pub stored: bool,
}

pub struct History {
    pub n: usize,
    pub initial: Vec<u64>,
    pub calls: Vec<Call>,
    /// The places of the commands after which the header differs.
    pub wins: Vec<u64>,
    pub script: String,
}

/// One process is slow, the others get on.
pub fn record(rng: &mut Rng, tags: u32, wrong: Option<Wrong>) -> History {
    let (n, w) = (rng.between(2, 3), rng.between(1, 2));
    let mut recorder = Recorder::new(n, w, tags, wrong);
    let goal = rng.between(4, 10);
    let slow = rng.below(n);
    let pause = rng.between(2, 14);
    while recorder.answered < goal && recorder.place < 400 {
        let is_slow = rng.once_in(pause);
        let p = match is_slow {
            true => slow,
            false => (slow + rng.between(1, n - 1)) % n,
        };
        let length = match is_slow {
            true => rng.between(1, 6),
            false => rng.pick(&[1, 2, 5, 9, 30]),
        };
        for _ in 0..length {
            if recorder.command(p, rng) {
                break;
            }
        }
    }
    if rng.once_in(2) {
        recorder.close(slow, rng);
    }
    recorder.history
}

struct Recorder {
    bench: Bench,
    w: usize,
    place: u64,
    values: u64,
    answered: usize,
    loaded: Vec<bool>,
    open: Vec<Option<usize>>,
    history: History,
}

impl Recorder {
    fn new(n: usize, w: usize, tags: u32, wrong: Option<Wrong>) -> Recorder {
        let initial = value(0, w);
        let bench = Bench::set_up(n as u64, w as u64, &initial, tags);
        Recorder {
            bench: bench.expect("N and W are in range").misread(wrong),
            w,
            place: 0,
            values: 0,
            answered: 0,
            loaded: vec![false; n],
            open: vec![None; n],
            history: History {
                n,
                initial,
                calls: Vec::new(),
                wins: Vec::new(),
                script: format!("{n} {w}:"),
            },
        }
    }

    /// One command for p; tells whether it answered.
    fn command(&mut self, p: usize, rng: &mut Rng) -> bool {
        self.place += 1;
        if self.bench.is_idle(p) {
            self.start(p, rng);
            return false;
        }
        let before = self.bench.successes();
        let answer = self.bench.command(p as u64, &Order::Step);
        let answer = answer.expect("a busy process takes a step");
        self.history.script.push_str(&format!(" {p}."));
        if self.bench.successes() > before {
            self.history.wins.push(self.place);
        }
        self.note(p, answer)
    }

    fn close(&mut self, p: usize, rng: &mut Rng) {
        while !self.bench.is_idle(p) {
            self.command(p, rng);
        }
    }

    fn start(&mut self, p: usize, rng: &mut Rng) {
        // Mostly LL and SC in turn: a second SC in a row only fails.
        let loads = match self.loaded[p] {
            true => 1,
            false => 7,
        };
        let kind = match rng.below(10) {
            _ if !self.bench.has_linked(p) => Kind::Load,
            k if k < loads => Kind::Load,
            0..=8 => {
                self.values += 1;
                Kind::Store(value(self.values, self.w))
            }
            _ => Kind::Validate,
        };
        self.loaded[p] = kind == Kind::Load;
        let (order, sign) = match &kind {
            Kind::Load => (Order::Load, "l".to_string()),
            Kind::Store(words) => (Order::Store(words.clone()), format!("s{}", self.values)),
            Kind::Validate => (Order::Validate, "v".to_string()),
        };
        let done = self.bench.command(p as u64, &order);
        done.expect("an idle process takes a start");
        self.history.script.push_str(&format!(" {p}{sign}"));
        self.open[p] = Some(self.history.calls.len());
        self.history.calls.push(Call {
            process: p,
            kind,
            start: self.place,
            end: self.place,
            outcome: Outcome::Open,
            stored: false,
        });
    }

    fn note(&mut self, p: usize, answer: Option<Answer>) -> bool {
        let at = self.open[p].expect("the call was open");
        let call = &mut self.history.calls[at];
        call.end = self.place;
        call.stored = self.bench.has_stored(p);
        let Some(answer) = answer else { return false };
        call.outcome = Outcome::Answered(answer.reply);
        call.stored = false;
        self.open[p] = None;
        self.answered += 1;
        true
    }
}

/// The k-th value. All its words differ, and none of them is 0.
fn value(k: u64, w: usize) -> Vec<u64> {
    (0..w as u64).map(|i| 10 * (k + 1) + i).collect()
}

/// Whether fewer successes than the limit come during each call, and from
/// each WLL's start to the end of each later SC or VL of that process
/// before its next WLL.
pub fn within_bound(history: &History, limit: u64) -> bool {
    let between = |from: u64, to: u64| {
        let during = |place: &&u64| from < **place && **place <= to;
        history.wins.iter().filter(during).count() as u64
    };
    let mut since = vec![0; history.n];
    history.calls.iter().all(|call| {
        if call.kind == Kind::Load {
            since[call.process] = call.start;
        }
        let from = since[call.process];
        between(call.start, call.end) < limit && between(from, call.end) < limit
    })
}

/// Whether Figure 1's object serves the calls in some order, and the SCs
/// and VLs after a WLL that names a process answer false.
pub fn served(history: &History) -> bool {
    let calls: Vec<(&Call, Option<machine::Reply>)> = history
        .calls
        .iter()
        .filter(|call| call.stored || call.outcome != Outcome::Open)
        .map(|call| (call, wanted(call)))
        .collect();
    let object = Object::new(&history.initial, history.n);
    false_after_naming(history) && place(&calls, 0, &object)
}

/// The reply that the object must give, if it is compared.
fn wanted(call: &Call) -> Option<machine::Reply> {
    match &call.outcome {
        Outcome::Open => Some(machine::Reply::Stored(true)),
        Outcome::Answered(Reply::Named(_)) => None,
        Outcome::Answered(Reply::Loaded(words)) => Some(machine::Reply::Loaded(words.clone())),
        Outcome::Answered(Reply::Stored(done)) => Some(machine::Reply::Stored(*done)),
        Outcome::Answered(Reply::Validated(done)) => Some(machine::Reply::Validated(*done)),
    }
}

fn false_after_naming(history: &History) -> bool {
    let mut named = vec![false; history.n];
    history.calls.iter().all(|call| {
        let named = &mut named[call.process];
        match &call.outcome {
            Outcome::Answered(Reply::Named(_)) => *named = true,
            Outcome::Answered(Reply::Loaded(_)) => *named = false,
            Outcome::Answered(Reply::Stored(true) | Reply::Validated(true)) => return !*named,
            Outcome::Open if call.stored => return !*named,
            _ => {}
        }
        true
    })
}

/// Depth first over all orders in which no call comes after one that
/// started only when it had ended; `placed` has a bit for each call.
fn place(calls: &[(&Call, Option<machine::Reply>)], placed: u64, object: &Object) -> bool {
    let waits = |k: usize| placed & (1 << k) == 0;
    let left = || (0..calls.len()).filter(|k| waits(*k));
    if left().next().is_none() {
        return true;
    }
    left().any(|next| {
        let (call, wanted) = &calls[next];
        if left().any(|k| calls[k].0.end < call.start) {
            return false;
        }
        let mut after = object.clone();
        let reply = after.serve(call.process, &call.kind);
        let fits = wanted.as_ref().map_or(true, |wanted| *wanted == reply);
        fits && place(calls, placed | (1 << next), &after)
    })
}
