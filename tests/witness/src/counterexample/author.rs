//! Random commands: one process is slow and stops anywhere in its call while
//! the others get on.

use super::play::{Sizes, Turn};
use crate::machine::{Bench, Order, Wrong};
use crate::rng::Rng;

const MOST_TURNS: usize = 400;

pub fn turns(rng: &mut Rng, wrong: Wrong) -> (Sizes, Vec<Turn>) {
    let sizes = Sizes {
        n: rng.between(2, 3),
        w: rng.between(1, 2),
        initial: 1,
    };
    let mut author = Author::new(sizes, wrong);
    let (goal, slow, pause) = (rng.between(2, 7), rng.below(sizes.n), rng.between(1, 12));
    while author.answers < goal && author.turns.len() < MOST_TURNS {
        let is_slow = rng.once_in(pause);
        let p = if is_slow {
            slow
        } else {
            (slow + rng.between(1, sizes.n - 1)) % sizes.n
        };
        let most = if is_slow {
            rng.between(1, 6)
        } else {
            rng.pick(&[1, 2, 5, 9, 30])
        };
        author.some(p, most, rng);
    }
    for k in 0..sizes.n {
        author.finish((slow + k) % sizes.n);
    }
    (sizes, author.turns)
}

struct Author {
    bench: Bench,
    w: usize,
    /// The last value written, so that every one is new.
    value: u64,
    answers: usize,
    turns: Vec<Turn>,
}

impl Author {
    fn new(sizes: Sizes, wrong: Wrong) -> Author {
        let initial = vec![sizes.initial; sizes.w];
        let bench = Bench::set_up(sizes.n as u64, sizes.w as u64, &initial, Some(wrong));
        Author {
            bench: bench.expect("N and W are in range"),
            w: sizes.w,
            value: sizes.initial,
            answers: 0,
            turns: Vec::new(),
        }
    }

    /// At most so many commands of p, up to an answer.
    fn some(&mut self, p: usize, most: usize, rng: &mut Rng) {
        for _ in 0..most {
            if !self.bench.is_idle(p) {
                if self.step(p) {
                    return;
                }
            } else {
                self.start(p, rng);
            }
        }
    }

    fn finish(&mut self, p: usize) {
        while !self.bench.is_idle(p) {
            self.step(p);
        }
    }

    fn step(&mut self, p: usize) -> bool {
        self.turns.push(Turn::Step(p));
        let answer = self.bench.command(p as u64, &Order::Step);
        let answered = answer.expect("a busy process takes a step").is_some();
        self.answers += usize::from(answered);
        answered
    }

    fn start(&mut self, p: usize, rng: &mut Rng) {
        let (turn, order) = match rng.below(10) {
            _ if !self.bench.has_linked(p) => (Turn::Load(p), Order::Load),
            0..=3 => (Turn::Load(p), Order::Load),
            4..=8 => {
                self.value += 1;
                let words = vec![self.value; self.w];
                (Turn::Store(p, self.value), Order::Store(words))
            }
            _ => (Turn::Validate(p), Order::Validate),
        };
        self.turns.push(turn);
        self.bench
            .command(p as u64, &order)
            .expect("an idle process takes a start");
    }
}
