//! Texts for Moir's bench: right ones whose calls meet, and ones at its own
//! limits of entries and room. The first bench's texts serve beside them.

use super::bench::{Bench, TAGS};
use crate::machine::Order;
use crate::rng::Rng;
use crate::texts::repeat;

/// The text of this number: a limit text until they are used up, then one
/// made at random.
pub fn text(seed: u64, index: u64, limits: &[Vec<u8>]) -> Vec<u8> {
    if let Some(text) = limits.get(index as usize) {
        return text.clone();
    }
    let rng = &mut Rng::stream(seed ^ 0x4D6F_6972, index);
    let (n, w, turns) = match rng.below(8) {
        0 => (rng.between(1, 16), rng.between(1, 64), 150),
        _ => (rng.between(1, 3), rng.between(1, 3), rng.between(20, 300)),
    };
    let mut author = Author::new(rng, n, w);
    author.write(turns);
    author.text.into_bytes()
}

/// A WLL alone has 129 steps at W = 64: 461 of them are 59,930 entries. A
/// line of 16 bytes and 8,097 of 8 leave 744; one more digit makes it 743.
pub fn limit_texts() -> Vec<Vec<u8>> {
    let mut texts = Vec::new();
    let most = format!("2 64 5\n{} ", repeat("0l 0!", 461));
    for end in [
        "0l 68(0.)",
        "0l 69(0.)",
        "0l 70(0.)",
        "0l 69(0.) 0l",
        "0l 68(0.) 0l",
        "0l 0!",
        "0l 69(0.) 2l",
    ] {
        texts.push(most.clone() + end);
    }
    for initial in ["555555555", "4000000000"] {
        for times in [8096, 8097, 8098] {
            let begin = format!("1 1 {initial}\n0l 0! {}", repeat("0v 0!", times));
            for end in ["", " 0v", " 0v 0!", " 0l 0!", " 0.", " 1."] {
                texts.push(begin.clone() + end);
            }
        }
    }
    texts.push(format!("16 64 4294967295\n{}", repeat("15l 15!", 300)));
    // The header is past tag 255 and 256 here, and its low byte wraps.
    texts.push(format!(
        "2 1 5\n1l 1. {} 1! 0v 0! 1v 1!",
        repeat("0l 0! 0s7 0!", 1200)
    ));
    texts.into_iter().map(String::into_bytes).collect()
}

/// Carries out what it writes, so that it knows who is idle.
struct Author<'a> {
    rng: &'a mut Rng,
    bench: Bench,
    text: String,
    n: usize,
    w: usize,
}

impl Author<'_> {
    fn new(rng: &mut Rng, n: usize, w: usize) -> Author<'_> {
        let initial = rng.below(100) as u64;
        let bench = Bench::set_up(n as u64, w as u64, &vec![initial; w], TAGS);
        Author {
            bench: bench.expect("N and W are in range"),
            text: format!("{n} {w} {initial}\n"),
            rng,
            n,
            w,
        }
    }

    /// One process is slow: the others get through many calls while it
    /// stands. Now and then an entry that is refused ends it all.
    fn write(&mut self, turns: usize) {
        let slow = self.rng.below(self.n);
        let pause = self.rng.between(1, 9);
        let patience = self.rng.between(1, 8);
        for _ in 0..turns {
            let p = self.rng.below(self.n);
            if p == slow && !self.rng.once_in(pause) {
                continue;
            }
            if self.bench.is_idle(p) {
                self.start(p);
            }
            if p != slow && self.rng.once_in(patience) {
                self.steps(p, usize::MAX);
            } else {
                let few = [0, 1, 1, 2, 3, self.w, self.w + 2, self.w + 3, self.w + 4];
                let most = self.rng.pick(&few);
                self.steps(p, most);
            }
        }
        if self.rng.once_in(4) {
            let p = self.rng.below(self.n);
            let wrong = ["l", ".", "s1", "v", "!"];
            let item = format!(" {p}{} {}l\n", self.rng.pick(&wrong), self.n);
            self.text.push_str(&item);
        }
    }

    fn start(&mut self, p: usize) {
        let value = self.rng.below(1000) as u64;
        let (order, item) = match self.rng.below(20) {
            _ if !self.bench.has_linked(p) => (Order::Load, format!("{p}l ")),
            0..=8 => (Order::Load, format!("{p}l ")),
            9..=17 => (Order::Store(vec![value; self.w]), format!("{p}s{value} ")),
            _ => (Order::Validate, format!("{p}v ")),
        };
        let done = self.bench.command(p as u64, &order);
        done.expect("the process is idle");
        self.text.push_str(&item);
    }

    /// Up to so many steps of an open call, fewer if it answers.
    fn steps(&mut self, p: usize, most: usize) {
        let mut made = 0;
        while made < most && !self.bench.is_idle(p) {
            let done = self.bench.command(p as u64, &Order::Step);
            done.expect("the process is busy");
            made += 1;
        }
        if most == usize::MAX && made > 0 {
            self.text.push_str(&format!("{p}!\n"));
        } else if (1..256).contains(&made) {
            self.text.push_str(&format!("{made}({p}.) "));
        } else {
            (0..made).for_each(|_| self.text.push_str(&format!("{p}. ")));
        }
    }
}
