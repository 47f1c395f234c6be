//! What is printed in the end.

use crate::case::Case;
use crate::survey::{Listing, Survey};

pub fn report(case: &Case, survey: &Survey) -> String {
    let (schedules, listings) = (survey.schedules, survey.listings.len());
    let mut told = match &survey.stopped_of {
        None => format!("schedules {schedules}\nlistings {listings}\njudge yes\n"),
        Some(all) => format!(
            "incomplete: ended by a signal after {schedules} of {all}\n\
             listings so far {listings}\njudge yes so far\n"
        ),
    };
    told += &refused_calls(case, survey.taken);
    for (place, listing) in survey.listings.iter().enumerate() {
        told += &match survey.stopped_of {
            None => block(
                place + 1,
                listing,
                &format!(", first number {}, ", listing.first),
            ),
            Some(_) => block(place + 1, listing, " so far, one of them has "),
        };
    }
    told
}

/// A line for each call that the bench refuses, where some schedule took it.
fn refused_calls(case: &Case, taken: [usize; 2]) -> String {
    let mut told = String::new();
    for (p, list) in case.lists.iter().enumerate() {
        for (place, listed) in list.iter().take(taken[p]).enumerate() {
            if let Some(cause) = listed.refusal {
                let (number, call) = (cause.number(), listed.call);
                told += &format!(
                    "refused {number}: process {p}, call {}, {call}\n",
                    place + 1
                );
            }
        }
    }
    told
}

/// How many schedules give a listing, one of them and the listing; `which` says
/// which one it is.
fn block(place: usize, listing: &Listing, which: &str) -> String {
    let schedules = match listing.times {
        1 => "1 schedule".to_string(),
        times => format!("{times} schedules"),
    };
    let turns = match listing.turns.is_empty() {
        true => "no turns".to_string(),
        false => format!("turns {}", digits(&listing.turns)),
    };
    let (text, lines) = (&listing.text, &listing.lines);
    format!("\nlisting {place}: {schedules}{which}{turns}\n{text}prints\n{lines}")
}

fn digits(turns: &[u8]) -> String {
    turns.iter().map(u8::to_string).collect()
}
