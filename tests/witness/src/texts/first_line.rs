//! Texts whose first line is at the edge of what is allowed, or past it.

use crate::rng::Rng;

pub fn text(rng: &mut Rng) -> Vec<u8> {
    const N: [&str; 9] = [
        "0",
        "1",
        "2",
        "16",
        "17",
        "016",
        "4294967295",
        "4294967296",
        "00",
    ];
    const W: [&str; 9] = [
        "0",
        "1",
        "64",
        "65",
        "0064",
        "255",
        "4294967295",
        "4294967296",
        "2",
    ];
    const INITIAL: [&str; 5] = ["0", "5", "4294967295", "4294967296", "0000000000000000005"];
    const SPACES: [&str; 7] = [" ", " ", " ", " ", " ", "  ", "\n"];
    const ENDS: [&str; 7] = ["\n", "\n", "\n", "\n", "", " \n", "\r\n"];
    const REST: [&str; 6] = ["", "0l 0!", "0l 0! 0s7 0! 0l 0!", "\n \n", "0l (", "0."];
    let mut text = String::new();
    text.push_str(rng.pick(&N));
    text.push_str(rng.pick(&SPACES));
    text.push_str(rng.pick(&W));
    text.push_str(rng.pick(&SPACES));
    text.push_str(rng.pick(&INITIAL));
    text.push_str(rng.pick(&ENDS));
    text.push_str(rng.pick(&REST));
    text.into_bytes()
}
