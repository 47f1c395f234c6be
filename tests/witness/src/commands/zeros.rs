//! Which number of a text is at fault for its leading zero.

use crate::schedule::parse;

pub const NUMBERS: [&str; 6] = ["N", "W", "initial number", "process", "count", "value"];

/// The number of NUMBERS whose leading zero is what breaks the text.
pub fn leading_zero(text: &[u8]) -> Option<usize> {
    let place = parse(text).err()?.place;
    let zero = place.checked_sub(1)?;
    let before = zero.checked_sub(1).map(|k| text[k]);
    let leads = text[zero] == b'0' && !before.is_some_and(|byte| byte.is_ascii_digit());
    if !leads || !text.get(place)?.is_ascii_digit() {
        return None;
    }
    if !text[..zero].contains(&b'\n') {
        return Some(text[..zero].iter().filter(|byte| **byte == b' ').count());
    }
    let after = text[place..].iter().find(|byte| !byte.is_ascii_digit());
    Some(match (before, after) {
        (Some(b's'), _) => 5,
        (_, Some(b'(')) => 4,
        _ => 3,
    })
}

#[cfg(test)]
mod tests {
    use super::leading_zero;

    #[test]
    fn told_apart() {
        for (number, text) in [
            "02 1 5\n",
            "2 01 5\n",
            "2 1 00\n",
            "2 1 5\n00l",
            "2 1 5\n01(",
            "2 1 5\n0s01(",
        ]
        .iter()
        .enumerate()
        {
            assert_eq!(leading_zero(text.as_bytes()), Some(number), "{text}");
        }
        for text in [
            "2 1 5\n0l",
            "2 1 5\n0l0",
            "42949672960 1 5\n",
            "0 0 0\n0",
            "",
        ] {
            assert_eq!(leading_zero(text.as_bytes()), None, "{text}");
        }
    }
}
