//! The bench: text runs of the proved library, and the proved judge.

use std::str;

use besklaun::{judge, run_text, trace_text, Refusal, Verdict};

use crate::plan::Plan;
use crate::trace::{told, Told};

/// The room that the programs `trace` and `schedule` lend.
const TRACE_ROOM: usize = 3_145_728;
const LISTING_ROOM: usize = 65_536;

pub struct Bench {
    n: usize,
    w: usize,
    value: Vec<u64>,
    trace: Vec<u8>,
}

/// A traced run: whether it came to its `end`, what the trace tells, and its
/// last line.
pub struct Run {
    pub outcome: Result<(), Refusal>,
    pub told: Told,
    pub last: String,
}

impl Run {
    /// Of a run that met no refusal.
    pub fn listing(&self) -> String {
        format!("{}{}\n", self.told.answers, self.last)
    }
}

impl Bench {
    pub fn of(plan: &Plan) -> Bench {
        let w = plan.w as usize;
        // a larger W is refused, whatever the value
        let value = vec![plan.initial; w.min(64)];
        Bench {
            n: plan.n as usize,
            w,
            value,
            trace: vec![0; TRACE_ROOM],
        }
    }

    pub fn traced(&mut self, text: &str) -> Run {
        let run = trace_text(text.as_bytes(), &mut self.trace);
        let trace = str::from_utf8(&self.trace[..run.written]).expect("a trace is ASCII");
        let lines = trace.trim_end_matches('\n');
        let (accesses, last) = lines.rsplit_once('\n').unwrap_or(("", lines));
        Run {
            outcome: run.outcome,
            told: told(accesses, self.w),
            last: last.to_string(),
        }
    }

    pub fn judged(&self, log: &[u64]) -> Verdict {
        judge(self.n, self.w, &self.value, log)
    }
}

/// The listing of a text.
pub fn listing(text: &str) -> String {
    let mut bytes = vec![0; LISTING_ROOM];
    let run = run_text(text.as_bytes(), &mut bytes);
    String::from_utf8_lossy(&bytes[..run.written]).into_owned()
}

#[cfg(test)]
mod tests {
    use std::fs;
    use std::path::{Path, PathBuf};

    use super::*;

    /// Every schedule of examples/, those among them in which a reader is
    /// helped: the moments that the trace tells earn a yes.
    #[test]
    fn examples_earn_a_yes() {
        let mut yes = 0;
        for path in examples() {
            let text = fs::read_to_string(&path).unwrap();
            let Some(mut bench) = bench_of(&text) else {
                continue;
            };
            let run = bench.traced(&text);
            if run.told.answers.lines().count() <= 512 {
                assert_eq!(
                    bench.judged(&run.told.log),
                    Verdict::Yes,
                    "{}",
                    path.display()
                );
                yes += 1;
            }
        }
        assert!(yes > 20);
    }

    #[test]
    fn an_old_value_gets_a_no() {
        let text = "2 1 5\n0l 0! 0s7 0! 1l 1! 0v 0!\n";
        let mut bench = bench_of(text).unwrap();
        let mut log = bench.traced(text).told.log;
        assert_eq!(bench.judged(&log), Verdict::Yes);
        log[20] = 5;
        assert_eq!(bench.judged(&log), Verdict::No);
    }

    #[test]
    fn the_listing_of_a_trace() {
        for path in examples() {
            let text = fs::read_to_string(&path).unwrap();
            let listed = listing(&text);
            let Some(mut bench) = bench_of(&text) else {
                continue;
            };
            let run = bench.traced(&text);
            if run.outcome.is_ok() {
                assert_eq!(run.listing(), listed);
            }
        }
    }

    fn examples() -> impl Iterator<Item = PathBuf> {
        let folder = Path::new(env!("CARGO_MANIFEST_DIR")).join("../examples");
        let files = fs::read_dir(folder).unwrap();
        let paths = files.map(|file| file.unwrap().path());
        paths.filter(|path| path.extension().is_some_and(|end| end == "txt"))
    }

    /// The bench of a text whose first line is taken.
    fn bench_of(text: &str) -> Option<Bench> {
        let first = text.lines().next()?;
        let plan = Plan::read(&format!("{first}\n\n\n\n")).ok()?;
        let mut bench = Bench::of(&plan);
        let outcome = bench.traced(&plan.first_line()).outcome;
        outcome.is_ok().then_some(bench)
    }
}
