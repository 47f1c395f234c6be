//! Two commands carried out in both orders.

use super::touch::{may_change_places, verdict_text, Obstacle, Touch};
use crate::machine::{Answer, Bench, Order};
use crate::station::{Command, List};

/// Accepted commands of different processes, one after the other, counted.
#[derive(Clone, Copy, Default, PartialEq, Eq, Debug)]
pub struct Survey {
    /// May change places: a start among them, other items, both only look.
    pub with_a_start: u64,
    pub apart: u64,
    pub both_look: u64,
    /// Have an item in common that one of them alters; and the ones of these
    /// that come to the same in either order all the same.
    pub in_common: u64,
    pub in_common_but_same: u64,
}

impl Survey {
    pub fn may(&self) -> u64 {
        self.with_a_start + self.apart + self.both_look
    }

    pub fn add(&mut self, other: &Survey) {
        self.with_a_start += other.with_a_start;
        self.apart += other.apart;
        self.both_look += other.both_look;
        self.in_common += other.in_common;
        self.in_common_but_same += other.in_common_but_same;
    }

    fn note(&mut self, one: &Touch, other: &Touch, same: bool) {
        match (one.item, other.item, may_change_places(one, other)) {
            (_, _, Err(_)) => {
                self.in_common += 1;
                self.in_common_but_same += u64::from(same);
            }
            (Some(a), Some(b), Ok(())) if (a.record, a.place) == (b.record, b.place) => {
                self.both_look += 1;
            }
            (Some(_), Some(_), Ok(())) => self.apart += 1,
            _ => self.with_a_start += 1,
        }
    }
}

/// At every state of a list, tries each two commands that two processes can
/// make next in both orders. An error tells two that may change places and do
/// not come to the same.
pub fn survey(list: &List) -> Result<Survey, String> {
    let refused = |number: u8| format!("refused {number}");
    let mut bench = list.set_up.carried_out().map_err(refused)?;
    let mut counted = Survey::default();
    for (place, command) in list.commands.iter().enumerate() {
        let _ = carried_out(&mut bench, command);
        let next: Vec<Command> = (0..bench.processes().len())
            .flat_map(|p| next_commands(&bench, p, place))
            .collect();
        for one in &next {
            for other in next.iter().filter(|other| other.process != one.process) {
                let (touches, same) = both_orders(&bench, one, other);
                let [first, second] = &touches;
                if !same && may_change_places(first, second).is_ok() {
                    return Err(format!("command {}: {touches:?}", place + 1));
                }
                counted.note(first, second, same);
            }
        }
    }
    Ok(counted)
}

/// A step if its call is open, else some starts.
fn next_commands(bench: &Bench, p: usize, place: usize) -> Vec<Command> {
    let record = place % bench.records().len();
    let command = |order: Order| Command {
        process: p as u64,
        record: record as u64,
        order,
    };
    if !bench.is_idle(p) {
        return vec![command(Order::Step)];
    }
    if !bench.has_linked_to(p, record) {
        return vec![command(Order::Load)];
    }
    let words = vec![place as u64; bench.words()];
    vec![command(Order::Validate), command(Order::Store(words))]
}

/// Neighbours of a run that were tried in both orders: lines as `neighbours`
/// has them, with `same` or `differs` after those of two processes; and
/// whether all that may change places come to the same.
pub fn swaps(mut bench: Bench, commands: &[Command]) -> (String, bool) {
    let (mut text, mut right) = (String::new(), true);
    for (k, two) in commands.windows(2).enumerate() {
        let ([first, second], same) = both_orders(&bench, &two[0], &two[1]);
        let verdict = may_change_places(&first, &second);
        right &= same || verdict.is_err();
        let outcome = match (verdict, same) {
            (Err(Obstacle::SameProcess), _) => "",
            (_, true) => " same",
            (_, false) => " differs",
        };
        text += &format!("{} {} {}{outcome}\n", k + 1, k + 2, verdict_text(verdict));
        let _ = carried_out(&mut bench, &two[0]);
    }
    (text, right)
}

/// What two commands touch in the order given, and whether the other order
/// leaves the same memory and gives the same two answers.
fn both_orders(bench: &Bench, one: &Command, other: &Command) -> ([Touch; 2], bool) {
    let (mut forth, mut back) = (bench.clone(), bench.clone());
    let first = carried_out(&mut forth, one);
    let first_touch = Touch::of_last(&forth, one.process);
    let second = carried_out(&mut forth, other);
    let second_touch = Touch::of_last(&forth, other.process);
    let answers = [carried_out(&mut back, other), carried_out(&mut back, one)];
    assert!(first.is_ok() && second.is_ok(), "both are accepted");
    let same = answers == [second, first] && forth.same_memory(&back);
    ([first_touch, second_touch], same)
}

fn carried_out(bench: &mut Bench, command: &Command) -> Result<Option<Answer>, u8> {
    bench.command_on(command.process, command.record, &command.order)
}
