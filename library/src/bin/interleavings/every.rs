//! Every schedule of a case, in dictionary order, process 0 before process 1.

use besklaun::{number_for, schedule_for, Refusal};

use crate::bench::Bench;
use crate::carrying::Carrying;
use crate::case::Case;
use crate::plan::Plan;
use crate::progress::Progress;
use crate::shared_out::shared_out;
use crate::survey::Survey;
use crate::Ended;

/// So many parts, if there are as many schedules.
const TASKS: u64 = 64;

/// All tasks begin with so many turns, if both lists are long enough.
const TASK_TURNS: usize = 6;

/// Every schedule of a and b turns, by the proved numbering; a task is a range
/// of numbers.
pub fn of_turns(plan: &Plan, case: &Case, [a, b]: [usize; 2]) -> Result<Survey, Ended> {
    let count = count(a, b)?;
    let tasks = count.min(TASKS);
    let from = |task| (u128::from(count) * u128::from(task) / u128::from(tasks)) as u64;
    shared_out(tasks, Progress::exactly(count), |task, counter| {
        let mut carrying = Carrying::new(case, Bench::of(plan));
        let mut survey = Survey::default();
        for number in from(task)..from(task + 1) {
            if counter.is_stopped() {
                break;
            }
            let found = schedule_for(a, b, number).map_err(not_numbered)?;
            let run = carrying.schedule(found.turns())?;
            survey.note(run.listing(), carrying.judged(&run), || carrying.made())?;
            survey.note_taken(carrying.taken());
            counter.add_one();
        }
        Ok(survey)
    })
}

/// Every schedule in which no turn passes and both lists come to their end; a
/// task has all that begin with the same few turns.
pub fn to_the_end(plan: &Plan, case: &Case) -> Result<Survey, Ended> {
    // no list needs half the turns that it needs alone, so none of these passes
    let shortest = case.alone[0].min(case.alone[1]);
    let turns = TASK_TURNS.min(shortest / 2);
    let progress = Progress::about(count_alone(case.alone));
    shared_out(1 << turns, progress, |task, counter| {
        let first = (0..turns).rev().map(|place| (task >> place & 1) as u8);
        let mut carrying = Carrying::begun(case, Bench::of(plan), first.collect());
        let mut survey = Survey::default();
        while !counter.is_stopped() {
            let run = carrying.to_the_end()?;
            survey.note(run.listing(), carrying.judged(&run), || carrying.made())?;
            survey.note_taken(carrying.taken());
            counter.add_one();
            if !carrying.advance(turns) {
                break;
            }
        }
        Ok(survey)
    })
}

/// How many schedules there are: one more than the number of the last, in
/// which process 1 comes first.
fn count(a: usize, b: usize) -> Result<u64, Ended> {
    schedule_for(a, b, 0).map_err(not_numbered)?;
    let last = [vec![1; b], vec![0; a]].concat();
    Ok(number_for(a, b, &last).map_err(not_numbered)? + 1)
}

fn not_numbered(cause: Refusal) -> Ended {
    match cause {
        Refusal::TooManyTurns => Ended::Refused("refused 20: A or B is above 32\n".to_string()),
        _ => Ended::Trouble(format!(
            "the numbering refused a schedule with {}",
            cause.number()
        )),
    }
}

/// How many there would be if no process made a call of the other longer.
fn count_alone([a, b]: [usize; 2]) -> f64 {
    (1..=a).map(|k| (b + k) as f64 / k as f64).product()
}
