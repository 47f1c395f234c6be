//! All schedules of two lists of calls carried out: how many there are, and
//! which listings they give.

use std::collections::HashMap;

use super::turns::{next_line, read_calls, Call, Table, Turned};
use crate::schedule::answer_line;
use crate::station::{numbers_of, SetUp};

/// So many turns of process 0 and 1, or turns until both lists are at their
/// end and no call is open, and then none that pass.
#[derive(Clone, Copy, PartialEq, Eq, Debug)]
pub enum Length {
    Turns(u64, u64),
    ToTheEnd,
}

/// What is to be carried out.
#[derive(Clone, PartialEq, Eq, Debug)]
pub struct Plan {
    pub set_up: SetUp,
    pub length: Length,
    pub calls: [Vec<Call>; 2],
}

/// A listing, the first schedule that gives it and how many do.
#[derive(Clone, PartialEq, Eq, Debug)]
pub struct Listing {
    pub lines: Vec<String>,
    pub first: String,
    pub times: u64,
}

#[derive(Clone, Default, PartialEq, Eq, Debug)]
pub struct Survey {
    pub schedules: u64,
    /// In the order of their first schedules.
    pub listings: Vec<Listing>,
    places: HashMap<Vec<String>, usize>,
}

pub fn interleavings(plan: &Plan) -> Result<Survey, u8> {
    let table = Table {
        bench: plan.set_up.carried_out()?,
        left: plan.calls.clone(),
    };
    Ok(interleavings_from(table, plan.length))
}

/// The same from any state of a station.
pub fn interleavings_from(table: Table, length: Length) -> Survey {
    let mut survey = Survey::default();
    go_on(
        table,
        length,
        &mut Vec::new(),
        &mut String::new(),
        &mut survey,
    );
    survey
}

/// Every way on from here, process 0 first.
fn go_on(
    table: Table,
    length: Length,
    lines: &mut Vec<String>,
    made: &mut String,
    survey: &mut Survey,
) {
    let mut ended = true;
    for p in 0..2 {
        let Some(shorter) = length.without(p, &table) else {
            continue;
        };
        ended = false;
        let mut next = table.clone();
        let line = line_of(p, next.turn(p as u64));
        let lines_before = lines.len();
        lines.extend(line);
        made.push(if p == 0 { '0' } else { '1' });
        go_on(next, shorter, lines, made, survey);
        made.pop();
        lines.truncate(lines_before);
    }
    if ended {
        survey.note(lines, made);
    }
}

impl Length {
    /// What is left after a turn of p, if p may take one.
    fn without(self, p: usize, table: &Table) -> Option<Length> {
        match (self, p) {
            (Length::ToTheEnd, _) => (!table.is_done(p)).then_some(Length::ToTheEnd),
            (Length::Turns(a, b), 0) => a.checked_sub(1).map(|a| Length::Turns(a, b)),
            (Length::Turns(a, b), _) => b.checked_sub(1).map(|b| Length::Turns(a, b)),
        }
    }
}

/// A line of the listing for an answer, and one for a refusal.
fn line_of(p: usize, turned: Turned) -> Option<String> {
    match turned {
        Turned::Reply(Ok(Some(answer))) => Some(answer_line(&answer)),
        Turned::Reply(Err(number)) => Some(format!("{p} refused {number}")),
        Turned::Reply(Ok(None)) | Turned::Pass => None,
    }
}

impl Survey {
    fn note(&mut self, lines: &[String], made: &str) {
        self.schedules += 1;
        if let Some(place) = self.places.get(lines) {
            self.listings[*place].times += 1;
            return;
        }
        self.places.insert(lines.to_vec(), self.listings.len());
        self.listings.push(Listing {
            lines: lines.to_vec(),
            first: made.to_string(),
            times: 1,
        });
    }

    pub fn written(&self) -> String {
        let mut text = format!(
            "schedules {}\nlistings {}\n",
            self.schedules,
            self.listings.len()
        );
        for listing in &self.listings {
            text += &format!("first {}\ntimes {}\n", listing.first, listing.times);
            for line in &listing.lines {
                text += &format!("  {line}\n");
            }
        }
        text
    }
}

impl Plan {
    /// The set-up's line; `A B` or `end`; then the calls as in a list of
    /// turns: `C0 C1` and a line for each.
    pub fn read(text: &str) -> Result<Plan, String> {
        let lines = &mut text.lines();
        let set_up = SetUp::read(next_line(lines)?)?;
        let length = match next_line(lines)? {
            "end" => Length::ToTheEnd,
            line => match numbers_of(line)?[..] {
                [a, b] => Length::Turns(a, b),
                _ => return Err("A B or `end` is wanted".to_string()),
            },
        };
        let calls = read_calls(lines)?;
        Ok(Plan {
            set_up,
            length,
            calls,
        })
    }
}
