use std::process::ExitCode;

use witness::commands::{self, say, NO_SUCH};

const USAGE: &str = "usage:
  witness run
  witness trace
  witness generate SEED COUNT DIR
  witness cover DIR
  witness compare PROGRAM DIR
  witness compare-trace PROGRAM DIR
  witness compare-faults PROGRAM DIR
  witness history SEED COUNT
  witness bench-text KIND N W
  witness difference --wrong READING
  witness counterexample SEED TRIES --wrong READING
  witness judge
  witness log
  witness bench-log CALLS W
  witness compare-judge PROGRAM SEED COUNT FILE
  witness fractions N W FILE...
  witness compare-fractions PROGRAM SEED COUNT DIR
  witness bench-listing KIND N W
  witness station-lists SEED COUNT DIR
  witness station-replies
  witness station-cover DIR
  witness compare-station PROGRAM DIR
  witness merge-files FIRST SECOND OUT ROOM
  witness board-run LIST FILE
  witness board-pairs SEED COUNT DIR
  witness board-limits DIR
  witness compare-merge PROGRAM DIR
  witness compare-board-run PROGRAM DIR
  witness board-cases SEED COUNT DIR
  witness board-listing N W K FILE
  witness board-trace N W K FILE
  witness compare-board PROGRAM DIR
  witness schedules A B
  witness ways
  witness schedule-questions SEED COUNT
  witness schedule-answers
  witness turn-lists SEED COUNT DIR
  witness turns
  witness compare-turns PROGRAM DIR
  witness interleavings
  witness neighbours
  witness marks
  witness compare-marks PROGRAM DIR
  witness swaps
  witness both-orders SEED COUNT
  witness moir-run
  witness moir-trace
  witness moir-generate SEED COUNT DIR
  witness moir-cover DIR
  witness moir-compare PROGRAM DIR
  witness moir-compare-trace PROGRAM DIR
  witness moir-history SEED COUNT
run, trace and history take --wrong READING too: line9, line10, line14,
lines67 or modn";

fn main() -> ExitCode {
    let words: Vec<String> = std::env::args().skip(1).collect();
    match commands::dispatch(&words) {
        Ok(code) => ExitCode::from(code),
        Err(complaint) => {
            let usage = if complaint == NO_SUCH { USAGE } else { "" };
            say(&format!("witness: {complaint}\n{usage}"));
            ExitCode::from(2)
        }
    }
}
