//! What the schedules gave: how many there were, and which listings.

use std::collections::HashMap;

use besklaun::Verdict;

use crate::bench::listing;
use crate::carrying::Schedule;
use crate::Ended;

/// A listing, the first schedule that gives it, and how many do.
pub struct Listing {
    pub turns: Vec<u8>,
    pub text: String,
    pub lines: String,
    pub first: u64,
    pub times: u64,
}

/// Listings in the order of their first schedules.
#[derive(Default)]
pub struct Survey {
    pub schedules: u64,
    pub listings: Vec<Listing>,
    /// The most calls that a schedule took from each list.
    pub taken: [usize; 2],
    /// Where not all were carried out: how many there are, in words.
    pub stopped_of: Option<String>,
    places: HashMap<String, usize>,
}

impl Survey {
    /// The next schedule, with its listing and what the judge says of its
    /// history, which must be a yes.
    pub fn note(
        &mut self,
        lines: String,
        verdict: Verdict,
        made: impl FnOnce() -> Schedule,
    ) -> Result<(), Ended> {
        if verdict != Verdict::Yes {
            return Err(not_yes(verdict, &made().text));
        }
        self.schedules += 1;
        if let Some(place) = self.places.get(&lines) {
            self.listings[*place].times += 1;
            return Ok(());
        }
        let Schedule { turns, text } = made();
        self.first_time(Listing {
            turns,
            text,
            lines,
            first: self.schedules - 1,
            times: 1,
        })
    }

    /// A schedule took so many calls from each list.
    pub fn note_taken(&mut self, taken: [usize; 2]) {
        for p in 0..2 {
            self.taken[p] = self.taken[p].max(taken[p]);
        }
    }

    /// Schedules that come after these.
    pub fn append(&mut self, after: Survey) {
        self.note_taken(after.taken);
        for mut listing in after.listings {
            if let Some(place) = self.places.get(&listing.lines) {
                self.listings[*place].times += listing.times;
                continue;
            }
            listing.first += self.schedules;
            self.places
                .insert(listing.lines.clone(), self.listings.len());
            self.listings.push(listing);
        }
        self.schedules += after.schedules;
    }

    /// A listing that the trace told is held against that of a run without a
    /// trace.
    fn first_time(&mut self, new: Listing) -> Result<(), Ended> {
        if listing(&new.text) != new.lines {
            let told = format!(
                "listing and trace of a schedule differ; its text is\n{}",
                new.text
            );
            return Err(Ended::Trouble(told));
        }
        self.places.insert(new.lines.clone(), self.listings.len());
        self.listings.push(new);
        Ok(())
    }
}

fn not_yes(verdict: Verdict, text: &str) -> Ended {
    let said = match verdict {
        Verdict::Refused(cause) => format!("refused {}", cause.number()),
        _ => "no".to_string(),
    };
    Ended::Refused(format!("judge {said}\n\n{text}"))
}

#[cfg(test)]
mod tests {
    use besklaun::Refusal;

    use super::*;

    fn schedule(text: &str) -> impl FnOnce() -> Schedule + '_ {
        move || Schedule {
            turns: vec![0],
            text: text.to_string(),
        }
    }

    fn noted(survey: &mut Survey, text: &str, lines: &str, verdict: Verdict) -> Result<(), Ended> {
        survey.note(lines.to_string(), verdict, schedule(text))
    }

    fn counted(survey: &Survey) -> Vec<(u64, u64)> {
        let listings = survey.listings.iter();
        listings
            .map(|listing| (listing.first, listing.times))
            .collect()
    }

    #[test]
    fn listings_are_counted() {
        let mut survey = Survey::default();
        noted(&mut survey, "2 1 5\n0l\n", "end 1\n", Verdict::Yes).unwrap();
        noted(&mut survey, "2 1 5\n\n", "end 0\n", Verdict::Yes).unwrap();
        noted(&mut survey, "2 1 5\n1l\n", "end 1\n", Verdict::Yes).unwrap();
        assert_eq!(counted(&survey), [(0, 2), (1, 1)]);
        let mut after = Survey::default();
        noted(&mut after, "2 1 5\n\n", "end 0\n", Verdict::Yes).unwrap();
        noted(&mut after, "2 1 5\n0l 0.\n", "end 2\n", Verdict::Yes).unwrap();
        survey.append(after);
        assert_eq!(survey.schedules, 5);
        assert_eq!(counted(&survey), [(0, 2), (1, 2), (4, 1)]);
    }

    #[test]
    fn another_verdict_shows_its_schedule() {
        for (verdict, said) in [
            (Verdict::No, "no"),
            (Verdict::Refused(Refusal::TooManyCalls), "refused 16"),
        ] {
            match noted(&mut Survey::default(), "2 1 5\n1l\n", "end 1\n", verdict) {
                Err(Ended::Refused(told)) => {
                    assert_eq!(told, format!("judge {said}\n\n2 1 5\n1l\n"))
                }
                other => panic!("{other:?}"),
            }
        }
    }

    #[test]
    fn a_listing_that_differs_from_its_trace_is_trouble() {
        let noted = noted(
            &mut Survey::default(),
            "2 1 5\n0l\n",
            "end 2\n",
            Verdict::Yes,
        );
        assert!(matches!(noted, Err(Ended::Trouble(_))));
    }
}
