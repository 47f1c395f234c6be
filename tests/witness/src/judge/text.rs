//! A log as text: decimal numbers parted by spaces, tabs, line feeds or
//! carriage returns: N, W, the value's words, the calls.

use super::{Log, Verdict};

pub const MOST_NUMBERS: usize = 65_536;

#[derive(Clone, Copy, PartialEq, Eq, Debug)]
pub enum Fault {
    StrayByte,
    TooLarge,
    TooMany,
    NoSizes,
}

pub fn read(text: &[u8]) -> Result<Log, Fault> {
    let mut numbers = Vec::new();
    let mut open: Option<u64> = None;
    for byte in text {
        match byte {
            b'0'..=b'9' => {
                let digit = u64::from(byte - b'0');
                let longer = open.unwrap_or(0).checked_mul(10);
                let longer = longer.and_then(|tens| tens.checked_add(digit));
                open = Some(longer.ok_or(Fault::TooLarge)?);
            }
            b' ' | b'\n' | b'\t' | b'\r' => end(&mut numbers, open.take())?,
            _ => return Err(Fault::StrayByte),
        }
    }
    end(&mut numbers, open)?;
    let [n, w, rest @ ..] = numbers.as_slice() else {
        return Err(Fault::NoSizes);
    };
    let value = rest.len().min(*w as usize);
    Ok(Log {
        n: *n,
        w: *w,
        value: rest[..value].to_vec(),
        numbers: rest[value..].to_vec(),
    })
}

fn end(numbers: &mut Vec<u64>, open: Option<u64>) -> Result<(), Fault> {
    if let Some(number) = open {
        if numbers.len() == MOST_NUMBERS {
            return Err(Fault::TooMany);
        }
        numbers.push(number);
    }
    Ok(())
}

/// The line, from 1 on, of the number of an index.
pub fn line_of(text: &str, index: usize) -> usize {
    let mut passed = 0;
    for (number, line) in (1..).zip(text.lines()) {
        passed += line.split_whitespace().count();
        if passed > index {
            return number;
        }
    }
    text.lines().count()
}

/// A line for N and W, one for the value, one for each call.
pub fn written(log: &Log) -> String {
    let line = |numbers: &[u64]| {
        let words: Vec<String> = numbers.iter().map(u64::to_string).collect();
        words.join(" ") + "\n"
    };
    let width = 6 + log.w as usize;
    let calls = log.numbers.chunks(width).map(line);
    line(&[log.n, log.w]) + &line(&log.value) + &calls.collect::<String>()
}

impl std::fmt::Display for Verdict {
    fn fmt(&self, to: &mut std::fmt::Formatter) -> std::fmt::Result {
        match self {
            Verdict::Refused(number) => write!(to, "refused {number}"),
            Verdict::Yes => write!(to, "yes"),
            Verdict::No => write!(to, "no"),
        }
    }
}
