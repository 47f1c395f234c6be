//! The listing: a line for each answer.

use super::form::Entry;
use crate::machine::{Answer, Reply};

pub fn answer_of(entry: &Entry) -> Option<String> {
    entry.answer.map(answer_line)
}

pub fn answer_line(answer: &Answer) -> String {
    let (kind, words) = match &answer.reply {
        Reply::Loaded(words) => ('L', words.clone()),
        Reply::Stored(success) => ('S', vec![u64::from(*success)]),
        Reply::Validated(valid) => ('V', vec![u64::from(*valid)]),
    };
    let mut line = format!("{} {} {}", answer.process, kind, answer.count);
    for word in words {
        line.push_str(&format!(" {word}"));
    }
    line
}
