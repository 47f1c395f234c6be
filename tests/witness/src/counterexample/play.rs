//! Commands as a schedule text can give them, and the history that they make.

use crate::history::{Call, History, Kind};
use crate::machine::{Answer, Bench, Order, Wrong};

/// A command. The value of an SC stands in all its words.
#[derive(Clone, Copy, PartialEq, Eq, Debug)]
pub enum Turn {
    Load(usize),
    Store(usize, u64),
    Validate(usize),
    Step(usize),
}

#[derive(Clone, Copy, Debug)]
pub struct Sizes {
    pub n: usize,
    pub w: usize,
    pub initial: u64,
}

/// The commands that were accepted, each with whether it answered, and the
/// calls that they answered.
pub struct Played {
    pub turns: Vec<(Turn, bool)>,
    pub history: History,
}

impl Turn {
    pub fn process(self) -> usize {
        match self {
            Turn::Load(p) | Turn::Store(p, _) | Turn::Validate(p) | Turn::Step(p) => p,
        }
    }

    fn order(self, w: usize) -> Order {
        match self {
            Turn::Load(_) => Order::Load,
            Turn::Store(_, value) => Order::Store(vec![value; w]),
            Turn::Validate(_) => Order::Validate,
            Turn::Step(_) => Order::Step,
        }
    }

    fn kind(self, w: usize) -> Option<Kind> {
        match self {
            Turn::Load(_) => Some(Kind::Load),
            Turn::Store(_, value) => Some(Kind::Store(vec![value; w])),
            Turn::Validate(_) => Some(Kind::Validate),
            Turn::Step(_) => None,
        }
    }
}

/// Carries the commands out after a set-up; refused ones are left out.
pub fn play(sizes: Sizes, turns: &[Turn], wrong: Option<Wrong>) -> Played {
    let initial = vec![sizes.initial; sizes.w];
    let bench = Bench::set_up(sizes.n as u64, sizes.w as u64, &initial, wrong);
    let mut bench = bench.expect("N and W are in range");
    let mut open: Vec<Option<(Kind, u64)>> = vec![None; sizes.n];
    let mut played = Played {
        turns: Vec::new(),
        history: History {
            n: sizes.n,
            initial,
            calls: Vec::new(),
            script: String::new(),
        },
    };
    for &turn in turns {
        let p = turn.process();
        let Ok(answer) = bench.command(p as u64, &turn.order(sizes.w)) else {
            continue;
        };
        played.turns.push((turn, answer.is_some()));
        let place = played.turns.len() as u64;
        if let Some(kind) = turn.kind(sizes.w) {
            open[p] = Some((kind, place));
        }
        if let Some(answer) = answer {
            let call = open[p].take().expect("the call was open");
            played.history.calls.push(answered(call, place, answer));
        }
    }
    played
}

fn answered((kind, start): (Kind, u64), place: u64, answer: Answer) -> Call {
    Call {
        process: answer.process,
        kind,
        start,
        answer: place,
        reply: answer.reply,
    }
}
