//! Items of a schedule text (docs/NOTATION.md), and their text.

use crate::plan::Call;

/// An item; the number is that of its process.
#[derive(Clone, Copy, PartialEq, Eq, Debug)]
pub enum Item {
    Start(usize, Call),
    Step(usize),
    /// Steps until the call answers.
    Finish(usize),
}

/// The largest count of a group.
const MOST_TIMES: usize = 255;

/// The text of the items after this first line, steps of one process in a row
/// as a group.
pub fn written(first_line: &str, items: &[Item]) -> String {
    let mut words = Vec::new();
    for run in items.chunk_by(|one, next| one == next) {
        match run[0] {
            Item::Step(p) => words.extend(
                run.chunks(MOST_TIMES)
                    .map(|steps| written_steps(p, steps.len())),
            ),
            Item::Start(p, call) => words.extend(run.iter().map(|_| format!("{p}{call}"))),
            Item::Finish(p) => words.extend(run.iter().map(|_| format!("{p}!"))),
        }
    }
    let items = words.join(" ");
    format!("{first_line}{items}\n")
}

fn written_steps(p: usize, times: usize) -> String {
    match times {
        1 => format!("{p}."),
        _ => format!("{times}({p}.)"),
    }
}

#[cfg(test)]
mod tests {
    use super::*;

    #[test]
    fn steps_in_a_row_are_a_group() {
        let mut items = vec![Item::Start(0, Call::Ll), Item::Step(0), Item::Step(1)];
        items.extend([Item::Step(0); 3]);
        items.push(Item::Finish(1));
        assert_eq!(written("2 1 5\n", &items), "2 1 5\n0l 0. 1. 3(0.) 1!\n");
        assert_eq!(written("", &[Item::Step(1); 256]), "255(1.) 1.\n");
        assert_eq!(written("2 1 5\n", &[]), "2 1 5\n\n");
    }
}
