//! Random small runs, step by step, and the calls they answer.

use super::object::Kind;
use crate::machine::{Answer, Bench, Order, Reply, Wrong};
use crate::rng::Rng;

/// An answered call; places count commands, the first one being 1.
#[derive(Clone, PartialEq, Eq, Debug)]
pub struct Call {
    pub process: usize,
    pub kind: Kind,
    pub start: u64,
    pub answer: u64,
    pub reply: Reply,
}

pub struct History {
    pub n: usize,
    pub initial: Vec<u64>,
    pub calls: Vec<Call>,
    /// The commands, for whoever has to look into a failure.
    pub script: String,
}

const MOST_COMMANDS: u64 = 600;

/// One process is slow: it stops at any place of its call while the others
/// get on, and at the end its call goes on first.
pub fn record(rng: &mut Rng, wrong: Option<Wrong>) -> History {
    let (n, w) = (rng.between(1, 3), rng.between(1, 2));
    let mut recorder = Recorder::new(n, w, wrong);
    let goal = rng.between(2, 7);
    let slow = rng.below(n);
    let pause = rng.between(1, 12);
    while recorder.calls.len() < goal && recorder.place < MOST_COMMANDS {
        let is_slow = n == 1 || rng.once_in(pause);
        let p = if is_slow {
            slow
        } else {
            (slow + rng.between(1, n - 1)) % n
        };
        let length = if is_slow {
            rng.between(1, 6)
        } else {
            rng.pick(&[1, 2, 5, 9, 30])
        };
        for _ in 0..length {
            if recorder.command(p, rng) {
                break;
            }
        }
    }
    (0..n).for_each(|k| recorder.close((slow + k) % n, rng));
    recorder.into_history()
}

struct Recorder {
    bench: Bench,
    w: usize,
    place: u64,
    values: u64,
    open: Vec<Option<(Kind, u64)>>,
    calls: Vec<Call>,
    initial: Vec<u64>,
    script: String,
}

impl Recorder {
    fn new(n: usize, w: usize, wrong: Option<Wrong>) -> Recorder {
        let initial = value(0, w);
        let bench = Bench::set_up(n as u64, w as u64, &initial, wrong);
        Recorder {
            bench: bench.expect("N and W are in range"),
            w,
            place: 0,
            values: 0,
            open: vec![None; n],
            calls: Vec::new(),
            script: format!("{n} {w}:"),
            initial,
        }
    }

    /// One command for p; tells whether it answered.
    fn command(&mut self, p: usize, rng: &mut Rng) -> bool {
        if rng.once_in(40) {
            self.refused_command(p);
        }
        self.place += 1;
        if !self.bench.is_idle(p) {
            self.script.push_str(&format!(" {p}."));
            let answer = self.bench.command(p as u64, &Order::Step);
            return self.note(answer.expect("a busy process takes a step"));
        }
        let kind = self.choose(p, rng);
        let order = match &kind {
            Kind::Load => Order::Load,
            Kind::Store(words) => Order::Store(words.clone()),
            Kind::Validate => Order::Validate,
        };
        self.bench
            .command(p as u64, &order)
            .expect("an idle process takes a start");
        self.open[p] = Some((kind, self.place));
        false
    }

    /// Steps until the open call of p, if there is one, is answered.
    fn close(&mut self, p: usize, rng: &mut Rng) {
        while !self.bench.is_idle(p) {
            self.command(p, rng);
        }
    }

    /// A refused command takes a place in the list and changes nothing.
    fn refused_command(&mut self, p: usize) {
        self.place += 1;
        let order = if self.bench.is_idle(p) {
            Order::Step
        } else {
            Order::Load
        };
        assert!(self.bench.command(p as u64, &order).is_err());
    }

    /// Every offered value is new, so that no order is right by chance.
    fn choose(&mut self, p: usize, rng: &mut Rng) -> Kind {
        let kind = match rng.below(10) {
            _ if !self.bench.has_linked(p) => Kind::Load,
            0..=3 => Kind::Load,
            4..=8 => {
                self.values += 1;
                Kind::Store(value(self.values, self.w))
            }
            _ => Kind::Validate,
        };
        let sign = match kind {
            Kind::Load => "l".to_string(),
            Kind::Store(_) => format!("s{}", self.values),
            Kind::Validate => "v".to_string(),
        };
        self.script.push_str(&format!(" {p}{sign}"));
        kind
    }

    fn note(&mut self, answer: Option<Answer>) -> bool {
        let Some(answer) = answer else { return false };
        let process = answer.process;
        let (kind, start) = self.open[process].take().expect("the call was open");
        self.calls.push(Call {
            process,
            kind,
            start,
            answer: self.place,
            reply: answer.reply,
        });
        true
    }

    fn into_history(self) -> History {
        History {
            n: self.open.len(),
            initial: self.initial,
            calls: self.calls,
            script: self.script,
        }
    }
}

/// The k-th value. All its half words differ, so that a torn value shows,
/// and none of them is 0, so that a buffer never written shows too.
fn value(k: u64, w: usize) -> Vec<u64> {
    let half = |i: u64| 10 * (k + 1) + i;
    let word = |i: u64| (half(2 * i + 1) << 32) | half(2 * i);
    (0..w as u64).map(word).collect()
}
