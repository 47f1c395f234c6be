//! A held list in the words of the separately written program.

use besklaun::held;

/// All memory in the lines of `witness::station::memory`, by the places that
/// the library names.
pub fn seen(held: &[u64]) -> Vec<String> {
    let [n, w, r] = [held::N, held::W, held::R].map(|place| held[place] as usize);
    let mut lines = Vec::new();
    for j in 0..r {
        lines.push(line(&held[held::record_place(j)..][..3]));
        lines.extend((0..2 * n).map(|i| line(&held[held::bank_place(j, i)..][..2])));
        lines.extend((0..n).map(|p| line(&held[held::help_place(j, p)..][..3])));
    }
    for p in 0..n {
        let call = &held[held::call_place(p)..][..8];
        let places = [call[3], line_of_figure_2(call[0]), call[1], call[2]];
        lines.push(line(&[&places, &call[4..]].concat()));
        lines.extend((0..r).map(|j| line(&held[held::holding_place(j, p)..][..4])));
    }
    let words = &held[held::words_place(r)..][..(3 * r + 2) * n * w];
    lines.extend(words.chunks(w).map(line));
    lines
}

/// The separately written program's lines have one number for both accesses
/// of lines 7, 12 and 14.
pub fn line_of_figure_2(number: u64) -> u64 {
    match number {
        24 => 7,
        25 => 12,
        26 => 14,
        line => line,
    }
}

fn line(numbers: &[u64]) -> String {
    let words: Vec<String> = numbers.iter().map(u64::to_string).collect();
    words.join(" ")
}
