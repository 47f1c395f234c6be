//! One file for each subcommand.

mod bench_text;
mod board_program;
mod boards;
mod commuting;
mod compare;
mod compare_faults;
mod compare_fractions;
mod cover;
mod files;
mod fractions;
mod generate;
mod history;
mod interleaving;
mod judge;
mod moir;
mod run;
mod station;
mod tally_rows;
mod wrong;
mod zeros;

pub use bench_text::bench_text;
pub use run::say;

use crate::machine::Wrong;

/// The complaint that the usage answers.
pub const NO_SUCH: &str = "no such subcommand";

const NO_READING: &str = "a reading is missing: --wrong KIND";

/// Carries out a subcommand and gives the exit status.
pub fn dispatch(words: &[String]) -> Result<u8, String> {
    let (wrong, words) = take_wrong(words)?;
    let words: Vec<&str> = words.iter().map(String::as_str).collect();
    match words.as_slice() {
        ["run"] => run::run(wrong),
        ["trace"] => run::trace(wrong),
        ["generate", seed, count, dir] => generate::generate(number(seed)?, number(count)?, dir),
        ["cover", dir] => cover::cover(dir),
        ["compare", program, dir] => compare::compare(program, dir),
        ["compare-trace", program, dir] => compare::compare_trace(program, dir),
        ["compare-faults", program, dir] => compare_faults::compare_faults(program, dir),
        ["history", seed, count] => history::history(number(seed)?, number(count)?, wrong),
        ["difference"] => wrong::difference(wrong.ok_or(NO_READING)?),
        ["counterexample", seed, tries] => {
            wrong::counterexample(number(seed)?, number(tries)?, wrong.ok_or(NO_READING)?)
        }
        ["moir-run"] => moir::run(),
        ["moir-trace"] => moir::trace(),
        ["moir-generate", seed, count, dir] => moir::generate(number(seed)?, number(count)?, dir),
        ["moir-cover", dir] => moir::cover(dir),
        ["moir-compare", program, dir] => compare::compare_moir(program, dir),
        ["moir-compare-trace", program, dir] => compare::compare_moir_trace(program, dir),
        ["moir-history", seed, count] => moir::history(number(seed)?, number(count)?),
        ["bench-text", kind, n, w] => {
            let text = bench_text(kind, number(n)?, number(w)?)?;
            run::print(text.as_bytes())
        }
        ["station-lists", seed, count, dir] => station::lists(number(seed)?, number(count)?, dir),
        ["station-replies"] => station::print_replies(),
        ["station-cover", dir] => station::cover(dir),
        ["compare-station", program, dir] => station::compare(program, dir),
        ["merge-files", first, second, out, room] => {
            boards::merge_files(first, second, out, number(room)?)
        }
        ["board-run", list, file] => boards::board_run(list, file),
        ["board-pairs", seed, count, dir] => {
            boards::board_pairs(number(seed)?, number(count)?, dir)
        }
        ["board-limits", dir] => boards::board_limits(dir),
        ["compare-merge", program, dir] => boards::compare_merge(program, dir),
        ["compare-board-run", program, dir] => boards::compare_run(program, dir),
        ["board-cases", seed, count, dir] => {
            board_program::cases(number(seed)?, number(count)?, dir)
        }
        ["board-listing", n, w, initial, file] => {
            board_program::listing(board_program::numbers(n, w, initial)?, file)
        }
        ["board-trace", n, w, initial, file] => {
            board_program::trace(board_program::numbers(n, w, initial)?, file)
        }
        ["compare-board", program, dir] => board_program::compare(program, dir),
        ["schedules", a, b] => interleaving::schedules(number(a)?, number(b)?),
        ["ways"] => interleaving::print_ways(),
        ["schedule-questions", seed, count] => {
            interleaving::print_questions(number(seed)?, number(count)?)
        }
        ["schedule-answers"] => interleaving::print_answers(),
        ["turn-lists", seed, count, dir] => {
            interleaving::turn_lists(number(seed)?, number(count)?, dir)
        }
        ["turns"] => interleaving::turns(),
        ["compare-turns", program, dir] => interleaving::compare(program, dir),
        ["interleavings"] => interleaving::all(),
        ["neighbours"] => commuting::print_neighbours(),
        ["marks"] => commuting::print_marks(),
        ["compare-marks", program, dir] => commuting::compare_marks(program, dir),
        ["swaps"] => commuting::print_swaps(),
        ["both-orders", seed, count] => commuting::both_orders(number(seed)?, number(count)?),
        ["judge"] => judge::judge_text(),
        ["log"] => judge::log(),
        ["bench-log", calls, w] => judge::bench(number(calls)?, number(w)?),
        ["compare-judge", program, seed, count, file] => {
            judge::compare(program, number(seed)?, number(count)?, file)
        }
        ["fractions", n, w, files @ ..] => fractions::fractions(number(n)?, number(w)?, files),
        ["compare-fractions", program, seed, count, dir] => {
            compare_fractions::compare_fractions(program, number(seed)?, number(count)?, dir)
        }
        ["bench-listing", kind, n, w] => {
            fractions::print_bench_listing(kind, number(n)?, number(w)?)
        }
        _ => Err(NO_SUCH.to_string()),
    }
}

/// The option `--wrong KIND` makes the simulator read Figure 2 wrongly.
fn take_wrong(words: &[String]) -> Result<(Option<Wrong>, Vec<String>), String> {
    let Some(at) = words.iter().position(|word| word == "--wrong") else {
        return Ok((None, words.to_vec()));
    };
    let name = words.get(at + 1).map_or("", String::as_str);
    let known: Vec<&str> = Wrong::ALL.iter().map(|(name, _)| *name).collect();
    let wrong = Wrong::named(name).ok_or(format!("--wrong takes one of {}", known.join(", ")))?;
    let rest = [&words[..at], &words[at + 2..]].concat();
    Ok((Some(wrong), rest))
}

fn number(word: &str) -> Result<u64, String> {
    word.parse().map_err(|_| format!("{word} is not a number"))
}
