//! The list as text: a line for the set-up, then a line for each command.
//! All numbers are decimal, one space between.
//!
//! ```text
//! N W R PROCESSES WORDS LEN v1 .. vLEN
//! P ORDER RECORD LEN v1 .. vLEN
//! ```
//!
//! ORDER is 0 step, 1 LL, 2 SC, 3 VL; LEN is 0 unless it is 2.

use crate::machine::{Bench, Lent, Order, Sizes};

#[derive(Clone, PartialEq, Eq, Debug)]
pub struct SetUp {
    pub sizes: Sizes,
    pub lent: Lent,
    pub value: Vec<u64>,
}

#[derive(Clone, PartialEq, Eq, Debug)]
pub struct Command {
    pub process: u64,
    pub record: u64,
    pub order: Order,
}

#[derive(Clone, PartialEq, Eq, Debug)]
pub struct List {
    pub set_up: SetUp,
    pub commands: Vec<Command>,
}

impl List {
    pub fn read(text: &str) -> Result<List, String> {
        let mut lines = text.lines().enumerate();
        let first = lines.next().ok_or("a list has a first line")?.1;
        let set_up = SetUp::read(first)?;
        let command = |(k, line): (usize, &str)| {
            Command::read(line).map_err(|fault| format!("line {}: {fault}", k + 1))
        };
        let commands = lines.map(command).collect::<Result<_, _>>()?;
        Ok(List { set_up, commands })
    }

    pub fn written(&self) -> String {
        let mut text = self.set_up.written();
        for command in &self.commands {
            text.push_str(&command.written());
        }
        text
    }
}

impl SetUp {
    pub fn read(line: &str) -> Result<SetUp, String> {
        let numbers = numbers_of(line)?;
        let ([n, w, r, processes, words], value) = split(&numbers)?;
        Ok(SetUp {
            sizes: Sizes { n, w, r },
            lent: Lent { processes, words },
            value,
        })
    }

    pub fn carried_out(&self) -> Result<Bench, u8> {
        Bench::station(self.sizes, self.lent, &self.value)
    }

    pub fn written(&self) -> String {
        let Sizes { n, w, r } = self.sizes;
        let Lent { processes, words } = self.lent;
        line_of(&[n, w, r, processes, words], &self.value)
    }
}

impl Command {
    fn read(line: &str) -> Result<Command, String> {
        let ([process], order, record) = order_of(line)?;
        Ok(Command {
            process,
            record,
            order,
        })
    }

    fn written(&self) -> String {
        written_order(&[self.process], &self.order, self.record)
    }
}

/// Some numbers in front, then `ORDER RECORD LEN v1 .. vLEN`.
pub fn order_of<const FRONT: usize>(line: &str) -> Result<([u64; FRONT], Order, u64), String> {
    let numbers = numbers_of(line)?;
    let Some((front, rest)) = numbers.split_first_chunk::<FRONT>() else {
        return Err("too few numbers".to_string());
    };
    let ([number, record], words) = split(rest)?;
    let order = match number {
        0 => Order::Step,
        1 => Order::Load,
        2 => Order::Store(words.clone()),
        3 => Order::Validate,
        _ => return Err("no such order".to_string()),
    };
    if !words.is_empty() && !matches!(order, Order::Store(_)) {
        return Err("only an SC brings words".to_string());
    }
    Ok((*front, order, record))
}

pub fn written_order(front: &[u64], order: &Order, record: u64) -> String {
    let (number, words): (u64, &[u64]) = match order {
        Order::Step => (0, &[]),
        Order::Load => (1, &[]),
        Order::Store(words) => (2, words),
        Order::Validate => (3, &[]),
    };
    line_of(&[front, &[number, record]].concat(), words)
}

pub fn numbers_of(line: &str) -> Result<Vec<u64>, String> {
    let number = |word: &str| word.parse().map_err(|_| format!("{word}: not a number"));
    line.split(' ').map(number).collect()
}

/// The numbers in front, then a count and so many words.
fn split<const FRONT: usize>(numbers: &[u64]) -> Result<([u64; FRONT], Vec<u64>), String> {
    let Some((front, [count, words @ ..])) = numbers.split_first_chunk::<FRONT>() else {
        return Err("too few numbers".to_string());
    };
    if words.len() as u64 != *count {
        return Err("LEN is not the number of words".to_string());
    }
    Ok((*front, words.to_vec()))
}

fn line_of(front: &[u64], words: &[u64]) -> String {
    let count = [words.len() as u64];
    let all = [front, &count, words].concat();
    let all: Vec<String> = all.iter().map(u64::to_string).collect();
    all.join(" ") + "\n"
}
