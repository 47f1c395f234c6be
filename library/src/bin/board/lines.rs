//! Records as lines `TICK PROCESS ORDER`, for an SC `TICK PROCESS s VALUE`,
//! and back. The letters of the orders are those of a schedule.

use std::fmt::Write;

use besklaun::Refusal;

use crate::reasons;
use crate::records::{number_at, records, MOST_BYTES, RECORD, SIGN, TRAILER};
use crate::{Board, Ended};

/// The letters of the orders 0 to 3.
pub const LETTERS: [char; 4] = ['.', 'l', 's', 'v'];

/// Text that is longer has more lines than a file has records.
pub const MOST_TEXT: usize = 67_108_864;

const MOST_RECORDS: usize = (MOST_BYTES - TRAILER) / RECORD;

/// The lines of a right file.
pub fn of(board: &Board) -> Result<Vec<u8>, Ended> {
    reasons::right_file(board)?;
    let mut text = String::new();
    for (_, record) in records(&board.bytes) {
        let (tick, process, order) = (number_at(record, 0), record[8], record[9]);
        let letter = LETTERS[usize::from(order)];
        write!(text, "{tick} {process} {letter}").expect("memory");
        if order == 2 {
            write!(text, " {}", number_at(record, 4)).expect("memory");
        }
        text.push('\n');
    }
    Ok(text.into_bytes())
}

/// The file of these lines, with no free bytes. A falling tick is 26, every
/// other fault trouble.
pub fn made(name: &str, text: &[u8]) -> Result<Vec<u8>, Ended> {
    let trouble = |words: String| Ended::Trouble(format!("'{name}'{words}"));
    if text.len() > MOST_TEXT {
        return Err(trouble(" is longer than 67,108,864 bytes".to_string()));
    }
    let mut bytes = Vec::new();
    let mut before = 0;
    let body = text.strip_suffix(b"\n").unwrap_or(text);
    let lines = body.split(|byte| *byte == b'\n');
    for (number, line) in (1..).zip(lines).filter(|_| !text.is_empty()) {
        let (tick, rest) =
            line_read(line).map_err(|wrong| trouble(format!(", line {number}: {wrong}")))?;
        if tick < before {
            let words = format!("the tick is {tick}, below {before}, the tick before it");
            return Err(reasons::refused(
                Refusal::BadRecord,
                name,
                &format!("line {number}: {words}"),
            ));
        }
        if number > MOST_RECORDS {
            let words = "a file of 16,777,216 bytes has 1,398,100 records";
            return Err(trouble(format!(", line {number}: {words}")));
        }
        before = tick;
        bytes.extend(tick.to_le_bytes());
        bytes.extend(rest);
    }
    let count = (bytes.len() / RECORD) as u32;
    bytes.extend([0, 0, 0, 0]);
    bytes.extend(count.to_le_bytes());
    bytes.extend(SIGN);
    Ok(bytes)
}

/// The tick of a line, and the other bytes of its record.
fn line_read(line: &[u8]) -> Result<(u32, [u8; 8]), String> {
    let line = std::str::from_utf8(line).map_err(|_| "it is no text".to_string())?;
    let words: Vec<&str> = line.split(' ').collect();
    let [tick, process, letter, ..] = words[..] else {
        return Err(format!(
            "{line:?} is not TICK PROCESS ORDER, one space between"
        ));
    };
    let tick = number(tick, u32::MAX.into(), "tick")? as u32;
    let process = number(process, u8::MAX.into(), "process")? as u8;
    let order = (0..).zip(LETTERS).find(|(_, of)| letter == of.to_string());
    let Some((order, _)) = order else {
        return Err(format!(
            "the order is {letter:?}, and not . (a step), l (LL), s (SC) or v (VL)"
        ));
    };
    let value = match (order, &words[3..]) {
        (2, [value]) => number(value, u32::MAX.into(), "value")? as u32,
        (2, []) => return Err("s, an SC, has a value after it".to_string()),
        (_, []) => 0,
        (2, _) => return Err("there is something after the value".to_string()),
        _ => {
            return Err(format!(
                "only s, an SC, has something after it, not {letter}"
            ))
        }
    };
    let mut rest = [0; 8];
    rest[..4].copy_from_slice(&value.to_le_bytes());
    rest[4..6].copy_from_slice(&[process, order]);
    Ok((tick, rest))
}

/// Decimal, with no sign and no leading zero, as `of` writes it.
pub fn number(word: &str, most: u64, what: &str) -> Result<u64, String> {
    let plain = word.bytes().all(|byte| byte.is_ascii_digit());
    let whole = plain && (word == "0" || !word.starts_with('0'));
    match word.parse::<u64>() {
        Ok(number) if whole && number <= most => Ok(number),
        _ => Err(format!(
            "the {what} is {word:?}, and not a number from 0 to {most}"
        )),
    }
}
