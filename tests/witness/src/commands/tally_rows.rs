//! A tally as rows of a report.

use crate::machine::Tally;

pub fn tally_rows(tally: &Tally) -> Vec<(String, u64)> {
    let mut rows = counts(tally);
    rows.extend(lines(tally));
    rows
}

pub fn counts(tally: &Tally) -> Vec<(String, u64)> {
    let mut rows = Vec::new();
    for (name, times) in ["4W+5", "4W+6", "6W+7", "8W+7"].iter().zip(tally.ll) {
        rows.push((format!("LL in {name} steps"), times));
    }
    for (more, times) in (4..).zip(tally.sc) {
        rows.push((format!("SC in 2W+{more} steps"), times));
    }
    rows.push(("VL in 1 step".to_string(), tally.vl));
    pair(&mut rows, "SC answers", ["false", "true"], tally.sc_answers);
    pair(&mut rows, "VL answers", ["false", "true"], tally.vl_answers);
    rows
}

pub fn lines(tally: &Tally) -> Vec<(String, u64)> {
    let mut rows = Vec::new();
    let (truth, success) = (["false", "true"], ["fails", "succeeds"]);
    pair(&mut rows, "line 7, VL", truth, tally.line7);
    pair(&mut rows, "line 9, SC", success, tally.line9);
    pair(&mut rows, "line 12, VL", truth, tally.line12_validate);
    pair(&mut rows, "line 13, SC", success, tally.line13);
    pair(&mut rows, "line 14, VL", truth, tally.line14_validate);
    pair(&mut rows, "line 15, help", ["fails", "given"], tally.line15);
    for (line, times) in [3, 6, 7, 11, 17].iter().zip(tally.halts) {
        rows.push((format!("line {line}, halt in a word"), times));
    }
    rows
}

fn pair(rows: &mut Vec<(String, u64)>, name: &str, outcomes: [&str; 2], times: [u64; 2]) {
    for (outcome, times) in outcomes.iter().zip(times) {
        rows.push((format!("{name} {outcome}"), times));
    }
}
