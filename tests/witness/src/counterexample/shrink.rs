//! The shortest list that taking stretches away leads to.

use super::play::Turn;

/// `torn` holds of the list given, and of the list returned.
pub fn shortest(turns: &[Turn], torn: impl Fn(&[Turn]) -> bool) -> Vec<Turn> {
    let mut kept = turns.to_vec();
    let mut length = kept.len();
    while length > 0 {
        let before = kept.len();
        let mut at = 0;
        while at < kept.len() {
            let end = (at + length).min(kept.len());
            let fewer = [&kept[..at], &kept[end..]].concat();
            if torn(&fewer) {
                kept = fewer;
            } else {
                at += length;
            }
        }
        // a stretch gone may let another go
        if kept.len() == before {
            length /= 2;
        }
    }
    kept
}
