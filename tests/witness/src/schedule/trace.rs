//! The trace: a line for each entry, with the access that its step made.

use super::form::Entry;
use super::listing::answer_line;
use crate::machine::{Access, Act, Half, Line, Links, Order, Place, Values};

pub fn entry_line(entry: &Entry) -> Option<String> {
    let mut line = format!("{} {} ", entry.number, entry.process);
    match &entry.seen.access {
        Some(access) => line += &of_step(entry.seen.line, access),
        None => line += &of_start(entry.order),
    }
    if let Some(answer) = entry.answer {
        line += " answers ";
        line += &answer_line(answer);
    }
    Some(line)
}

/// In a text all words of an SC are the same number.
fn of_start(order: &Order) -> String {
    match order {
        Order::Load => "start L".to_string(),
        Order::Store(words) => format!("start S {}", words[0]),
        Order::Validate => "start V".to_string(),
        Order::Step => unreachable!("a step is no start"),
    }
}

fn of_step(line: Line, access: &Access) -> String {
    let links = match access.links {
        Links::Untouched => "",
        Links::OwnSet => " link set",
        Links::AllCleared => " links cleared",
    };
    let (place, act) = (place_text(access.place), of_act(access.act));
    format!("{} {place} {act}{links}", line.number())
}

pub fn place_text(place: Place) -> String {
    match place {
        Place::X => "X".to_string(),
        Place::Bank(i) => format!("Bank[{i}]"),
        Place::Help(i) => format!("Help[{i}]"),
        Place::HalfWord(b, k, Half::Low) => format!("BUF[{b}][{k}] low"),
        Place::HalfWord(b, k, Half::High) => format!("BUF[{b}][{k}] high"),
    }
}

fn of_act(act: Act) -> String {
    match act {
        Act::Ll(values) => format!("LL {}", of_values(values)),
        Act::Vl(valid) => format!("VL {valid}"),
        Act::Sc(values, success) => format!("SC {} {success}", of_values(values)),
        Act::Read(values) => format!("read {}", of_values(values)),
        Act::Write(values) => format!("write {}", of_values(values)),
    }
}

fn of_values(values: Values) -> String {
    match values {
        Values::Tag(tag) => format!("{} {}", tag.buffer, tag.sequence),
        Values::Buffer(buffer) => buffer.to_string(),
        Values::Request(request) => {
            format!("{} {}", u8::from(request.helpme), request.buffer)
        }
        Values::Half(bits) => bits.to_string(),
    }
}
