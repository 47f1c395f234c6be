//! The access that a process makes next, in the words of docs/FIGURE-2.md.

use std::fmt;

use super::station::Station;

/// A shared item, written as in a trace.
#[derive(Clone, Copy, PartialEq, Eq, Debug)]
pub enum Item {
    X,
    Bank(u64),
    Help(u64),
    Half { buffer: u64, word: u64, high: bool },
}

impl fmt::Display for Item {
    fn fmt(&self, to: &mut fmt::Formatter) -> fmt::Result {
        match self {
            Item::X => write!(to, "X"),
            Item::Bank(i) => write!(to, "Bank[{i}]"),
            Item::Help(p) => write!(to, "Help[{p}]"),
            Item::Half { buffer, word, high } => {
                let half = if *high { "high" } else { "low" };
                write!(to, "BUF[{buffer}][{word}] {half}")
            }
        }
    }
}

pub struct Next {
    /// The line of Figure 2.
    pub line: u64,
    pub item: Item,
    pub does: &'static str,
}

/// The next access of process p, or none where it is idle.
pub fn next(station: &Station, p: usize) -> Option<Next> {
    let (call, own) = (station.call(p), station.holding(p));
    let n = station.n as u64;
    let half = |buffer| Item::Half {
        buffer,
        word: call.halves / 2,
        high: call.halves % 2 == 1,
    };
    let item = match call.point {
        0 => return None,
        1 | 4 | 8 | 9 | 10 => Item::Help(p as u64),
        3 | 6 => half(own.x_buffer),
        24 => half(call.b),
        11 | 17 => half(own.mybuf),
        12 | 13 => Item::Bank(own.x_number),
        14 | 15 => Item::Help(own.x_number % n),
        18 => Item::Bank((own.x_number + 1) % (2 * n)),
        _ => Item::X,
    };
    Some(Next {
        line: figure_line(call.point),
        item,
        does: does(call.point),
    })
}

/// Points 24, 25 and 26 are second accesses of lines 7, 12 and 14.
fn figure_line(point: u64) -> u64 {
    match point {
        24 => 7,
        25 => 12,
        26 => 14,
        line => line,
    }
}

fn does(point: u64) -> &'static str {
    match point {
        1 => "asks for help, with its own buffer to be given in exchange",
        2 => "reads which buffer has the present value, and links to X",
        3 => "copies the buffer that X named",
        4 => "looks whether somebody has helped",
        5 => "reads X once more, and links to it anew",
        6 => "copies the buffer that X names now",
        7 => "asks whether X is still the same",
        8 => "looks whether help is still asked for",
        9 => "takes the request back, unless somebody helps just now",
        10 => "takes the buffer that lies there as its own",
        11 => "copies the value into its own buffer",
        12 => "looks whether Bank knows the buffer of the value that was read",
        13 => "writes the buffer of the value that was read into Bank",
        14 => "looks whether the process whose turn it is asks for help",
        15 => "hands over its own buffer, which holds the value of its last LL",
        17 => "copies the words offered into its own buffer",
        18 => "reads which buffer has the oldest value that is kept",
        19 => {
            "makes its own buffer and the next sequence number the present ones, if its link holds"
        }
        23 => "asks whether the link of its last LL still holds",
        24 => "copies the buffer that was handed over",
        _ => "asks whether X is still the same",
    }
}

/// The letter of the call to which a point belongs; none of an idle process.
pub fn kind(point: u64) -> Option<&'static str> {
    match point {
        0 => None,
        1..=11 | 24 => Some("LL"),
        23 => Some("VL"),
        _ => Some("SC"),
    }
}
