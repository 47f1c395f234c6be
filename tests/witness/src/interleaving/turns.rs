//! Turns of processes 0 and 1, each with its list of calls, on a station.

use std::str::Lines;

use crate::machine::{Answer, Bench, Order};
use crate::station::{memory, numbers_of, order_of, reply_line, written_order, SetUp};

/// A call as a start names it: the order and the record.
pub type Call = (Order, u64);

/// A set-up, the calls of processes 0 and 1, and the turns.
#[derive(Clone, PartialEq, Eq, Debug)]
pub struct TurnList {
    pub set_up: SetUp,
    pub calls: [Vec<Call>; 2],
    pub turns: Vec<u64>,
}

/// A station and the calls that are left.
#[derive(Clone)]
pub struct Table {
    pub bench: Bench,
    pub left: [Vec<Call>; 2],
}

/// What a turn gives: the command's reply, or a pass.
#[derive(Clone, PartialEq, Eq, Debug)]
pub enum Turned {
    Reply(Result<Option<Answer>, u8>),
    Pass,
}

impl Table {
    /// One turn; 22 for another than 0 or 1. A call that was started leaves
    /// the list even if it is refused.
    pub fn turn(&mut self, turn: u64) -> Turned {
        if turn > 1 {
            return Turned::Reply(Err(22));
        }
        let p = turn as usize;
        if self.is_busy(p) {
            return Turned::Reply(self.bench.command(turn, &Order::Step));
        }
        if self.left[p].is_empty() {
            return Turned::Pass;
        }
        let (order, record) = self.left[p].remove(0);
        Turned::Reply(self.bench.command_on(turn, record, &order))
    }

    /// "at N = 1 process 1 counts as idle"
    fn is_busy(&self, p: usize) -> bool {
        p < self.bench.processes().len() && !self.bench.is_idle(p)
    }

    /// Whether another turn of p would only pass.
    pub fn is_done(&self, p: usize) -> bool {
        !self.is_busy(p) && self.left[p].is_empty()
    }

    fn calls_left(&self) -> String {
        format!("{} {}", self.left[0].len(), self.left[1].len())
    }
}

pub struct TurnRun {
    pub lines: Vec<String>,
    pub table: Option<Table>,
}

impl TurnList {
    pub fn table(&self) -> Result<Table, u8> {
        Ok(Table {
            bench: self.set_up.carried_out()?,
            left: self.calls.clone(),
        })
    }

    /// A line for the set-up and for each turn: the calls left to process 0
    /// and 1, and then the reply or `pass`.
    pub fn carried_out(&self) -> TurnRun {
        let mut table = match self.table() {
            Ok(table) => table,
            Err(number) => {
                return TurnRun {
                    lines: vec![format!("refused {number}")],
                    table: None,
                }
            }
        };
        let mut lines = vec!["accepted".to_string()];
        for turn in &self.turns {
            let told = match table.turn(*turn) {
                Turned::Pass => "pass".to_string(),
                Turned::Reply(reply) => reply_line(&reply),
            };
            lines.push(format!("{} {told}", table.calls_left()));
        }
        TurnRun {
            lines,
            table: Some(table),
        }
    }

    /// The set-up's line; `C0 C1`, the numbers of calls; a line for each call
    /// of process 0, then of process 1, `ORDER RECORD LEN v1 .. vLEN`; then
    /// the turns, a line each.
    pub fn read(text: &str) -> Result<TurnList, String> {
        let lines = &mut text.lines();
        let set_up = SetUp::read(next_line(lines)?)?;
        let calls = read_calls(lines)?;
        let turn = |line: &str| line.parse().map_err(|_| format!("{line}: no turn"));
        let turns = lines.map(turn).collect::<Result<_, String>>()?;
        Ok(TurnList {
            set_up,
            calls,
            turns,
        })
    }

    pub fn written(&self) -> String {
        let [first, second] = &self.calls;
        let mut text = self.set_up.written();
        text += &format!("{} {}\n", first.len(), second.len());
        for (order, record) in first.iter().chain(second) {
            text += &written_order(&[], order, *record);
        }
        for turn in &self.turns {
            text += &format!("{turn}\n");
        }
        text
    }
}

pub fn next_line<'a>(lines: &mut Lines<'a>) -> Result<&'a str, String> {
    lines.next().ok_or("a line is missing".to_string())
}

/// `C0 C1`, and a line for each call.
pub fn read_calls(lines: &mut Lines) -> Result<[Vec<Call>; 2], String> {
    let [first, second] = numbers_of(next_line(lines)?)?[..] else {
        return Err("two numbers of calls are wanted".to_string());
    };
    let mut calls = |count: u64| -> Result<Vec<Call>, String> {
        (0..count).map(|_| read_call(next_line(lines)?)).collect()
    };
    Ok([calls(first)?, calls(second)?])
}

fn read_call(line: &str) -> Result<Call, String> {
    match order_of::<0>(line)? {
        (_, Order::Step, _) => Err("a step is no call".to_string()),
        (_, order, record) => Ok((order, record)),
    }
}

impl TurnRun {
    /// As `witness turns` prints it, the memory after the last line.
    pub fn written(&self) -> String {
        let mut lines = self.lines.clone();
        lines.extend(self.table.iter().flat_map(|table| memory(&table.bench)));
        lines.join("\n") + "\n"
    }
}
