//! Questions about schedules, a line each, numbers with one space between,
//! and the answers to them.
//!
//! ```text
//! 0 A B K                  the schedule of number K
//! 1 A B LEN t1 .. tLEN     the number of a schedule
//! 2 A B LEN t1 .. tLEN     the schedule after it
//! ```
//!
//! An answer is a schedule as `LEN t1 .. tLEN`, a number, `last`, or
//! `refused C`.

use super::every::every_schedule;
use super::number::{after, number_of, schedule_of, ways, MOST_TURNS};
use crate::rng::Rng;

#[derive(Clone, PartialEq, Eq, Debug)]
pub enum Question {
    ScheduleOf(u64, u64, u64),
    NumberOf(u64, u64, Vec<u64>),
    After(u64, u64, Vec<u64>),
}

impl Question {
    pub fn read(line: &str) -> Result<Question, String> {
        let number = |word: &str| word.parse().map_err(|_| format!("{word}: not a number"));
        let numbers: Vec<u64> = line.split(' ').map(number).collect::<Result<_, String>>()?;
        let question = match numbers.as_slice() {
            [0, a, b, k] => Question::ScheduleOf(*a, *b, *k),
            [kind @ 1..=2, a, b, count, turns @ ..] if *count == turns.len() as u64 => {
                let of = [Question::NumberOf, Question::After][*kind as usize - 1];
                of(*a, *b, turns.to_vec())
            }
            _ => return Err(format!("{line}: no question")),
        };
        Ok(question)
    }

    pub fn written(&self) -> String {
        match self {
            Question::ScheduleOf(a, b, k) => format!("0 {a} {b} {k}\n"),
            Question::NumberOf(a, b, turns) => format!("1 {a} {b} {}\n", listed(turns)),
            Question::After(a, b, turns) => format!("2 {a} {b} {}\n", listed(turns)),
        }
    }
}

pub fn answer(question: &Question) -> String {
    let told = match question {
        Question::ScheduleOf(a, b, k) => {
            schedule_of(*a, *b, u128::from(*k)).map(|turns| listed(&turns))
        }
        Question::NumberOf(a, b, turns) => number_of(*a, *b, turns).map(|k| k.to_string()),
        Question::After(a, b, turns) => {
            after(*a, *b, turns).map(|next| next.map_or("last".to_string(), |turns| listed(&turns)))
        }
    };
    told.unwrap_or_else(|number| format!("refused {number}"))
}

fn listed<T: ToString>(turns: &[T]) -> String {
    let mut words = vec![turns.len().to_string()];
    words.extend(turns.iter().map(T::to_string));
    words.join(" ")
}

/// All about every a and b up to `small`, then so many random ones with a and
/// b up to 32, among them some at the ends and some that are refused.
pub fn questions(seed: u64, count: u64, small: u64) -> Vec<Question> {
    let mut all = Vec::new();
    for a in 0..=small {
        for b in 0..=small {
            exhausted(a, b, &mut all);
        }
    }
    all.extend((0..count).map(|index| some(&mut Rng::stream(seed, index))));
    all
}

fn exhausted(a: u64, b: u64, all: &mut Vec<Question>) {
    let mut number = 0;
    every_schedule(a as usize, b as usize, &mut |turns| {
        let turns: Vec<u64> = turns.iter().map(|turn| u64::from(*turn)).collect();
        all.push(Question::ScheduleOf(a, b, number));
        all.push(Question::NumberOf(a, b, turns.clone()));
        all.push(Question::After(a, b, turns));
        number += 1;
    });
    all.push(Question::ScheduleOf(a, b, number));
}

fn some(rng: &mut Rng) -> Question {
    let (a, b) = (turns_of_one(rng), turns_of_one(rng));
    match rng.below(3) {
        0 => Question::ScheduleOf(a, b, some_number(rng, a, b)),
        1 => Question::NumberOf(a, b, some_turns(rng, a, b)),
        _ => Question::After(a, b, some_turns(rng, a, b)),
    }
}

fn turns_of_one(rng: &mut Rng) -> u64 {
    match rng.below(10) {
        0..=3 => 32,
        4 => rng.pick(&[31, 33, 33, 64, 255]),
        5 => rng.pick(&[0, 1]),
        _ => rng.bits() % 33,
    }
}

/// A number at one end, in the middle or past the last.
fn some_number(rng: &mut Rng, a: u64, b: u64) -> u64 {
    let count = ways(a.min(MOST_TURNS), b.min(MOST_TURNS)) as u64;
    match rng.below(8) {
        0 => rng.bits() % 3,
        1 => count.saturating_sub(rng.bits() % 4),
        2 => count + rng.bits() % 3,
        3 => rng.pick(&[u64::MAX, 1 << 63, 1 << 32]),
        _ => rng.bits() % count,
    }
}

fn some_turns(rng: &mut Rng, a: u64, b: u64) -> Vec<u64> {
    let mut turns = [vec![0; a as usize], vec![1; b as usize]].concat();
    match rng.below(6) {
        0 => {}
        1 => turns.reverse(),
        _ => shuffle(rng, &mut turns),
    }
    if rng.once_in(5) {
        spoil(rng, &mut turns);
    }
    turns
}

fn shuffle(rng: &mut Rng, turns: &mut [u64]) {
    for k in (1..turns.len()).rev() {
        turns.swap(k, rng.below(k + 1));
    }
}

/// Other totals, or a third process.
fn spoil(rng: &mut Rng, turns: &mut Vec<u64>) {
    let place = rng.below(turns.len() + 1);
    match (rng.below(4), turns.get_mut(place)) {
        (0, Some(turn)) => *turn = 1 - *turn,
        (1, Some(turn)) => *turn = rng.pick(&[2, 3, 255]),
        (2, Some(_)) => {
            turns.remove(place);
        }
        _ => turns.insert(place, rng.pick(&[0, 1, 2])),
    }
}
