//! The replies to a list, a line each, and then the memory.

use super::list::List;
use super::memory::memory;
use crate::machine::{Answer, Bench, Reply};

/// What a list gives: its lines, and the bench if the set-up was accepted.
pub struct Run {
    pub lines: Vec<String>,
    pub bench: Option<Bench>,
}

impl Run {
    /// As `witness station-replies` prints it.
    pub fn written(&self) -> String {
        let mut lines = self.lines.clone();
        lines.extend(self.bench.iter().flat_map(memory));
        lines.join("\n") + "\n"
    }
}

pub fn replies(list: &List) -> Run {
    match list.set_up.carried_out() {
        Err(number) => Run {
            lines: vec![format!("refused {number}")],
            bench: None,
        },
        Ok(mut bench) => {
            let mut lines = vec!["accepted".to_string()];
            for command in &list.commands {
                let reply = bench.command_on(command.process, command.record, &command.order);
                lines.push(reply_line(&reply));
            }
            Run {
                lines,
                bench: Some(bench),
            }
        }
    }
}

pub fn reply_line(reply: &Result<Option<Answer>, u8>) -> String {
    match reply {
        Err(number) => format!("refused {number}"),
        Ok(None) => "accepted".to_string(),
        Ok(Some(answer)) => answer_line(answer),
    }
}

fn answer_line(answer: &Answer) -> String {
    let count = answer.count;
    match &answer.reply {
        Reply::Stored(truth) => format!("SC {} {count}", u8::from(*truth)),
        Reply::Validated(truth) => format!("VL {} {count}", u8::from(*truth)),
        Reply::Loaded(words) => {
            let words: Vec<String> = words.iter().map(u64::to_string).collect();
            format!("LL {count} {}", words.join(" "))
        }
    }
}
