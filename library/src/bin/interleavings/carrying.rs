//! A schedule carried out: its turns become the items of a schedule text, and
//! the bench runs the text.
//!
//! Whether a turn of a busy process answers is for the bench to say. A turn
//! that it has not yet said it of is taken to answer if the call took as many
//! steps the last time, and the run then shows whether this was so. A run is
//! right where the items made from what it showed are those that it ran;
//! otherwise they are run again, and then more of them are right. What is known
//! of the turns that a schedule shares with the one before it is kept.

use besklaun::{Refusal, Verdict};

use crate::bench::{Bench, Run};
use crate::case::Case;
use crate::state::State;
use crate::text::{written, Item};
use crate::Ended;

/// A schedule: its turns, and their text.
pub struct Schedule {
    pub turns: Vec<u8>,
    pub text: String,
}

pub struct Carrying<'a> {
    case: &'a Case,
    bench: Bench,
    turns: Vec<u8>,
    /// For each turn from the first on whether it answered a call, as far as
    /// the bench has shown it.
    answered: Vec<bool>,
    /// For each call the own steps that it took when it was last answered.
    steps: [Vec<usize>; 2],
    /// The calls that the last schedule took from each list.
    taken: [usize; 2],
}

/// The items of the turns, the place of the turn of each, whether each turn is
/// taken to answer, and what they leave.
#[derive(Default)]
struct Made {
    items: Vec<Item>,
    places: Vec<usize>,
    answers: Vec<bool>,
    state: State,
}

impl<'a> Carrying<'a> {
    pub fn new(case: &'a Case, bench: Bench) -> Carrying<'a> {
        Carrying::begun(case, bench, Vec::new())
    }

    /// These turns are made; none of them passes.
    pub fn begun(case: &'a Case, bench: Bench, turns: Vec<u8>) -> Carrying<'a> {
        let steps = [0, 1].map(|p: usize| vec![0; case.lists[p].len()]);
        Carrying {
            case,
            bench,
            turns,
            answered: Vec::new(),
            steps,
            taken: [0; 2],
        }
    }

    /// Carries out the schedule with these turns.
    pub fn schedule(&mut self, turns: &[u8]) -> Result<Run, Ended> {
        let pairs = self.turns.iter().zip(turns);
        let shared = pairs.take_while(|(before, now)| before == now).count();
        self.answered.truncate(shared);
        self.turns.clear();
        self.turns.extend_from_slice(turns);
        self.run(false)
    }

    /// Carries out the first schedule that goes on from the turns made so far
    /// until both lists are at their end, process 0 first; its turns are then
    /// made.
    pub fn to_the_end(&mut self) -> Result<Run, Ended> {
        let run = self.run(true)?;
        let Made {
            items, mut state, ..
        } = self.walked();
        let mut answers = run.told.answered[items.len()..].iter();
        for p in 0..2 {
            while !state.is_done(self.case, p) {
                let has_item = state.clone().turn(self.case, p, false).is_some();
                let answered = has_item && *answers.next().expect("a command for an item");
                state.turn(self.case, p, answered);
                self.turns.push(p as u8);
                self.answered.push(answered);
            }
        }
        Ok(run)
    }

    /// The turns with which all schedules after this one begin: the last turn
    /// of process 0 that process 1 could have taken becomes one of process 1.
    /// False where there is none behind the first `kept` turns.
    pub fn advance(&mut self, kept: usize) -> bool {
        let mut state = State::default();
        let mut last = None;
        for (place, turn) in self.turns.iter().enumerate() {
            if place >= kept && *turn == 0 && !state.is_done(self.case, 1) {
                last = Some(place);
            }
            state.turn(self.case, *turn as usize, self.answered[place]);
        }
        if let Some(place) = last {
            self.turns.truncate(place);
            self.answered.truncate(place);
            self.turns.push(1);
        }
        last.is_some()
    }

    /// What the judge says of the history of a run.
    pub fn judged(&self, run: &Run) -> Verdict {
        self.bench.judged(&run.told.log)
    }

    /// How many calls the schedule that was carried out took from each list.
    pub fn taken(&self) -> [usize; 2] {
        self.taken
    }

    /// The schedule that was carried out.
    pub fn made(&self) -> Schedule {
        Schedule {
            turns: self.turns.clone(),
            text: written(&self.case.first_line, &self.walked().items),
        }
    }

    /// A run of the turns made, with both lists to their end where it is asked
    /// for, that took no turn for another.
    fn run(&mut self, to_the_end: bool) -> Result<Run, Ended> {
        loop {
            let made = self.walked();
            let mut items = made.items.clone();
            if to_the_end {
                items.extend((0..2).flat_map(|p| made.state.rest(self.case, p)));
            }
            let text = written(&self.case.first_line, &items);
            let run = self.bench.traced(&text);
            let mut shown = shown_by(&run, &made);
            let wrong = (0..shown.len()).find(|place| shown[*place] != made.answers[*place]);
            if let Some(place) = wrong {
                shown.truncate(place + 1);
            }
            self.answered = shown;
            self.remember();
            self.taken = match to_the_end {
                true => [0, 1].map(|p: usize| self.case.lists[p].len()),
                false => made.state.taken(),
            };
            match (wrong, run.outcome) {
                (None, Ok(())) => return Ok(run),
                (None, Err(cause)) => return Err(not_carried_out(cause, &text)),
                _ => {}
            }
        }
    }

    fn walked(&self) -> Made {
        let mut made = Made::default();
        for (place, turn) in self.turns.iter().enumerate() {
            let p = *turn as usize;
            let known = self.answered.get(place).copied();
            let answers = known.unwrap_or_else(|| self.expected(&made.state, p));
            made.answers.push(answers);
            if let Some(item) = made.state.turn(self.case, p, answers) {
                made.items.push(item);
                made.places.push(place);
            }
        }
        made
    }

    /// Whether a turn of p is taken to answer.
    fn expected(&self, state: &State, p: usize) -> bool {
        let open = state.open_call(p);
        open.is_some_and(|call| state.steps[p] + 1 == self.steps[p][call])
    }

    /// The steps that calls took, for the next time.
    fn remember(&mut self) {
        let mut state = State::default();
        for (turn, answered) in self.turns.iter().zip(&self.answered) {
            let p = *turn as usize;
            let open = state.open_call(p);
            state.turn(self.case, p, *answered);
            if let (Some(call), true) = (open, *answered) {
                self.steps[p][call] = state.steps[p];
            }
        }
    }
}

/// Whether each turn answered; of those that were not carried out what it was
/// taken for.
fn shown_by(run: &Run, made: &Made) -> Vec<bool> {
    let mut shown = made.answers.clone();
    for (place, answered) in made.places.iter().zip(&run.told.answered) {
        shown[*place] = *answered;
    }
    shown
}

fn not_carried_out(cause: Refusal, text: &str) -> Ended {
    Ended::Trouble(format!(
        "a schedule was refused with {}; its text is\n{text}",
        cause.number()
    ))
}
