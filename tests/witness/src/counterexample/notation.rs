//! Commands in schedule notation.

use super::play::{Played, Sizes, Turn};

const WIDTH: usize = 100;

/// The text of the commands that were accepted. Steps of one process in a
/// row are a group, or `!` where the last of them answers.
pub fn text_of(sizes: Sizes, played: &Played) -> String {
    let mut text = format!("{} {} {}\n", sizes.n, sizes.w, sizes.initial);
    let mut column = 0;
    for item in items(&played.turns) {
        if column > 0 && column + 1 + item.len() > WIDTH {
            text.push('\n');
            column = 0;
        }
        if column > 0 {
            text.push(' ');
            column += 1;
        }
        text.push_str(&item);
        column += item.len();
    }
    text.push('\n');
    text
}

fn items(turns: &[(Turn, bool)]) -> Vec<String> {
    let mut items = Vec::new();
    let mut at = 0;
    while at < turns.len() {
        let (turn, _) = turns[at];
        let same = |next: &&(Turn, bool)| next.0 == turn && matches!(turn, Turn::Step(_));
        let length = turns[at..].iter().take_while(same).count().max(1);
        let answers = turns[at + length - 1].1;
        items.push(item(turn, length, answers));
        at += length;
    }
    items
}

fn item(turn: Turn, length: usize, answers: bool) -> String {
    match turn {
        Turn::Load(p) => format!("{p}l"),
        Turn::Store(p, value) => format!("{p}s{value}"),
        Turn::Validate(p) => format!("{p}v"),
        Turn::Step(p) if answers => format!("{p}!"),
        Turn::Step(p) if length == 1 => format!("{p}."),
        Turn::Step(p) => format!("{length}({p}.)"),
    }
}
