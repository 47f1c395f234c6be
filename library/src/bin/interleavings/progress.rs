//! How far the work is, on standard error.

use std::io::{stderr, IsTerminal, Write};
use std::time::{Duration, Instant};

/// Nothing is said before, as the rate is not known yet.
const FIRST: Duration = Duration::from_millis(500);

/// Nor where no more seconds are left then.
const SHORT: f64 = 2.0;

/// Words on standard error. Those that do not get out harm nothing.
pub fn say(words: &str) {
    let _ = stderr().write_all(words.as_bytes());
}

pub struct Progress {
    /// How many schedules there are, or about how many, and how it is said.
    expected: f64,
    shown: String,
    began: Instant,
    next: Instant,
    terminal: bool,
    said: bool,
}

impl Progress {
    pub fn exactly(count: u64) -> Progress {
        Progress::new(count as f64, format!("{count} schedules"))
    }

    pub fn about(count: f64) -> Progress {
        Progress::new(count, format!("about {count:.0} schedules"))
    }

    fn new(expected: f64, shown: String) -> Progress {
        let began = Instant::now();
        Progress {
            expected,
            shown,
            began,
            next: began + FIRST,
            terminal: stderr().is_terminal(),
            said: false,
        }
    }

    /// So many are done.
    pub fn tell(&mut self, done: u64) {
        let now = Instant::now();
        if now < self.next {
            return;
        }
        let rate = done as f64 / now.duration_since(self.began).as_secs_f64();
        let seconds = (self.expected - done as f64).max(0.0) / rate;
        if !self.said && seconds < SHORT {
            return;
        }
        let left = shown_time(seconds);
        let shown = &self.shown;
        if !self.said {
            let rate = format!("{rate:.0} a second");
            say(&format!(
                "interleavings: {shown}, about {left} at {rate}; Ctrl-C ends it with a report so far\n"
            ));
            self.said = true;
        } else if self.terminal {
            say(&format!(
                "\rinterleavings: {done} of {shown} done, about {left} left   "
            ));
        } else {
            say(&format!(
                "interleavings: {done} of {shown} done, about {left} left\n"
            ));
        }
        self.next = now + Duration::from_secs(if self.terminal { 1 } else { 10 });
    }

    /// Whatever else is said begins on a line of its own.
    pub fn done(&self) {
        if self.said && self.terminal {
            say("\n");
        }
    }

    /// How many there are, in words.
    pub fn of(&self) -> String {
        self.shown.clone()
    }
}

fn shown_time(seconds: f64) -> String {
    const UNITS: [(f64, &str); 5] = [
        (31_557_600.0, "years"),
        (86_400.0, "days"),
        (3_600.0, "hours"),
        (60.0, "minutes"),
        (1.0, "seconds"),
    ];
    let fits = |(length, _): &&(f64, &str)| seconds >= 2.0 * length;
    let (length, unit) = UNITS.iter().find(fits).unwrap_or(&UNITS[4]);
    format!("{:.0} {unit}", seconds / length)
}

#[cfg(test)]
mod tests {
    use super::*;

    #[test]
    fn times() {
        assert_eq!(shown_time(0.4), "0 seconds");
        assert_eq!(shown_time(119.0), "119 seconds");
        assert_eq!(shown_time(150.0), "2 minutes");
        assert_eq!(shown_time(10_800.0), "3 hours");
        assert_eq!(shown_time(1e6), "12 days");
        assert_eq!(shown_time(3.2e12), "101402 years");
    }
}
