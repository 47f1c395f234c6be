//! Texts at the limits of length, entries, listing room and depth.

use super::repeat::repeat;
use crate::schedule::TEXT_LIMIT;

pub fn texts() -> Vec<Vec<u8>> {
    let mut texts = Vec::new();
    texts.extend(lengths());
    texts.extend(entries());
    texts.extend(room());
    texts.extend(depths());
    texts.extend(huge_groups());
    texts
}

/// A text brought to this length with blanks.
fn padded(text: &str, length: usize) -> Vec<u8> {
    let mut bytes = text.as_bytes().to_vec();
    while bytes.len() < length {
        bytes.push([b' ', b'\n'][bytes.len() % 2]);
    }
    bytes
}

/// Length is judged before notation, so faults must not show beyond it.
fn lengths() -> Vec<Vec<u8>> {
    let right = "2 1 5\n0l 0! 0s7 0!";
    let mut texts = Vec::new();
    for length in [
        TEXT_LIMIT - 1,
        TEXT_LIMIT,
        TEXT_LIMIT + 1,
        TEXT_LIMIT + 2,
        40_000,
    ] {
        texts.push(padded(right, length));
        texts.push(padded("x", length));
        texts.push(padded("0 1 5\n", length));
        let mut late_fault = padded(right, length - 1);
        late_fault.push(b'(');
        texts.push(late_fault);
        let mut late_step = padded(right, length - 3);
        late_step.extend_from_slice(b" 1!");
        texts.push(late_step);
        let mut zeros = b"2 1 ".to_vec();
        zeros.resize(length, b'0');
        texts.push(zeros);
    }
    let mut many = "1 1 5\n0l 0!".to_string();
    many.push_str(&" 0v 0.".repeat((TEXT_LIMIT - many.len()) / 6));
    texts.push(many.into_bytes());
    texts
}

/// An LL alone has 262 steps at W = 64: 228 of them are 59,964 entries.
fn entries() -> Vec<Vec<u8>> {
    let most = format!("1 64 5\n{} ", repeat("0l 0!", 228));
    let ends = [
        "0l 34(0.)",
        "0l 35(0.)",
        "0l 36(0.)",
        "0l 0!",
        "0l 35(0.) 0!",
        "0l 35(0.) 0l",
        "0l 35(0.) 1l",
        "0l 35(0.) 9(0.)",
        "0l 34(0.) 0!",
        "0l 34(0.) 0l",
    ];
    let mut texts: Vec<Vec<u8>> = ends
        .iter()
        .map(|end| (most.clone() + end).into_bytes())
        .collect();
    // Here the last entry of the 60,000 answers.
    let padding = format!("2 64 5\n1l 35(1.) {}", repeat("0l 0!", 228));
    for end in ["", " 1.", " 0v", " 2v", " 0."] {
        texts.push((padding.clone() + end).into_bytes());
    }
    texts
}

fn room() -> Vec<Vec<u8>> {
    let mut texts = Vec::new();
    // A line of 16 bytes and 8,097 of 8 leave 744; one more digit makes it 743.
    for initial in ["55555555", "555555555"] {
        for times in [8096, 8097, 8098] {
            let begin = format!("1 1 {initial}\n0l 0! {}", repeat("0v 0!", times));
            for end in ["", " 0v", " 0v 0!", " 0v 0! 0v", " 0l 0!", " 0.", " 1."] {
                texts.push((begin.clone() + end).into_bytes());
            }
        }
    }
    // The longest lines there are.
    let wide = format!("16 64 4294967295\n15l 15! {}", repeat("15l 15!", 255));
    texts.push(wide.into_bytes());
    texts.extend(room_and_entries());
    texts
}

/// Answer lines bring the room under 744 with entry 60,000 itself, or with
/// one a little earlier or later: 12 comes before 14.
fn room_and_entries() -> Vec<Vec<u8>> {
    let mut texts = Vec::new();
    for steps in [163, 164, 165, 166] {
        let lines = format!("{} 0s1000 0! 76(0l 0!)", repeat("0l 0!", 151));
        for end in ["", " 0v", " 0.", " 9l"] {
            texts.push(format!("2 64 555\n1l {steps}(1.) {lines}{end}").into_bytes());
        }
    }
    texts
}

fn nested(counts: &[&str], body: &str) -> String {
    let opening: String = counts.iter().map(|count| format!("{count}(")).collect();
    format!("{opening}{body}{}", ")".repeat(counts.len()))
}

/// Eight deep is right, nine is not, and a fault further left decides.
fn depths() -> Vec<Vec<u8>> {
    let eight = ["1"; 8];
    let mut texts = Vec::new();
    for ninth in ["1", "255", "256", "0", "00", "4294967295", "4294967296", ""] {
        let counts: Vec<&str> = eight.iter().copied().chain([ninth]).collect();
        for body in ["0l 0!", "", "0", "x", "("] {
            texts.push(format!("2 1 5\n{}", nested(&counts, body)));
        }
    }
    let right = nested(&eight, "0l 0!");
    let nine = nested(&["1"; 9], "0l 0!");
    for text in [
        format!("{right} {right}"),
        format!("{right} {nine}"),
        format!("{right}{nine}"),
        format!("x {nine}"),
        format!("{nine} x"),
        format!("0l0 {nine}"),
        format!("0l) {nine}"),
        format!("{nine})"),
        nested(&eight, "0l 0! 1"),
        nested(&eight, "0s7(0l)"),
        nested(&eight, "0l(0l)"),
        "1(".repeat(8),
        "1(".repeat(9),
        "1( ".repeat(8),
        "1(".repeat(5000),
        nested(&eight, " \n0l 0! \n"),
        nested(&["2"; 8], "0l 0!"),
    ] {
        texts.push(format!("2 1 5\n{text}"));
    }
    texts.into_iter().map(String::into_bytes).collect()
}

/// Groups that stand for 255 to the eighth carryings-out and must stop.
fn huge_groups() -> Vec<Vec<u8>> {
    let bodies = [
        "0l",
        "0.",
        "0l 0!",
        "0l 0! 0v 0!",
        "1l",
        "0l 0! 0s4294967295 0!",
        "0l 11(0.)",
    ];
    let all = |w: usize| {
        let texts = bodies
            .iter()
            .map(move |body| format!("1 {w} 5\n{}", nested(&["255"; 8], body)));
        texts.map(String::into_bytes).collect::<Vec<_>>()
    };
    [all(1), all(3), all(64)].concat()
}
