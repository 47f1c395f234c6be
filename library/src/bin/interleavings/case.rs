//! A plan tried on the bench: whether it takes the first line, and which calls
//! it refuses. A call of process p is refused with 7 where no LL of p was
//! answered before, and with 4 where there is no process p. So the other
//! process has no say in it: each list alone shows it.

use besklaun::Refusal;

use crate::bench::Bench;
use crate::plan::{Call, Plan};
use crate::text::{written, Item};
use crate::Ended;

/// A call, and why the bench refuses it, if it does.
#[derive(Clone, Copy, PartialEq, Eq, Debug)]
pub struct Listed {
    pub call: Call,
    pub refusal: Option<Refusal>,
}

pub struct Case {
    pub first_line: String,
    pub lists: [Vec<Listed>; 2],
    /// The turns that each list needs where it runs alone.
    pub alone: [usize; 2],
}

impl Case {
    pub fn of(plan: &Plan, mut bench: Bench) -> Result<Case, Ended> {
        let first_line = plan.first_line();
        let (first, first_alone) = tried(&mut bench, &first_line, 0, &plan.calls[0])?;
        let (second, second_alone) = tried(&mut bench, &first_line, 1, &plan.calls[1])?;
        Ok(Case {
            first_line,
            lists: [first, second],
            alone: [first_alone, second_alone],
        })
    }
}

/// A list carried out alone, each refused call left out once it was found.
fn tried(
    bench: &mut Bench,
    first_line: &str,
    p: usize,
    calls: &[Call],
) -> Result<(Vec<Listed>, usize), Ended> {
    let listed = |call: &Call| Listed {
        call: *call,
        refusal: None,
    };
    let mut list: Vec<Listed> = calls.iter().map(listed).collect();
    loop {
        let taken: Vec<usize> = (0..list.len())
            .filter(|k| list[*k].refusal.is_none())
            .collect();
        let items: Vec<Item> = taken
            .iter()
            .flat_map(|k| [Item::Start(p, list[*k].call), Item::Finish(p)])
            .collect();
        let run = bench.traced(&written(first_line, &items));
        let commands = run.told.answered.len();
        match run.outcome {
            Ok(()) => return Ok((list, commands + calls.len() - taken.len())),
            // every call before the refused one was finished
            Err(cause @ (Refusal::NoSuchProcess | Refusal::NeverLinked)) => {
                list[taken[run.told.answers.lines().count()]].refusal = Some(cause);
            }
            Err(cause) => return Err(not_taken(cause)),
        }
    }
}

fn not_taken(cause: Refusal) -> Ended {
    match cause {
        Refusal::NOutOfRange | Refusal::WOutOfRange => Ended::refused(cause),
        _ => Ended::Trouble(format!(
            "a list of calls is too long for one schedule text, which was refused with {}",
            cause.number()
        )),
    }
}
