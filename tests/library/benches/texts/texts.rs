//! Short texts: nothing at all, a first line alone, single entries, calls.

pub struct Text {
    pub name: &'static str,
    pub n: usize,
    pub w: usize,
    pub bytes: String,
}

pub fn short_texts() -> Vec<Text> {
    let mut texts = vec![Text {
        name: "empty",
        n: 0,
        w: 0,
        bytes: String::new(),
    }];
    let mut push = |name, n, w, items: String| {
        let bytes = format!("{n} {w} 5\n{items}");
        texts.push(Text { name, n, w, bytes });
    };
    for (n, w) in [(2, 1), (16, 64)] {
        push("first line", n, w, String::new());
        for entries in [1, 10, 40, 100] {
            push("single entries", n, w, single_entries(w, entries));
        }
    }
    for times in [1, 2, 5] {
        let calls = vec!["0l 0! 0s7 0! 0v 0!"; times];
        push("whole calls", 2, 1, calls.join(" "));
    }
    texts
}

/// Process 0 makes an LL and a VL, again and again: so many of the starts and
/// steps of which they are made.
fn single_entries(w: usize, entries: usize) -> String {
    let call = |start, steps| [vec![start], vec!["0."; steps]].concat();
    let calls = [call("0l", 4 * w + 6), call("0v", 1)].concat();
    let taken: Vec<&str> = calls.into_iter().cycle().take(entries).collect();
    taken.join(" ")
}
