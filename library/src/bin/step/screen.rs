//! What is shown: the entry in words, the processes, X, Bank and Help beside
//! the buffers, and of the chosen process what it has for itself. A star is at
//! what this entry changed.

use super::buffers::words;
use super::commands::{Command, Order};
use super::next::next;
use super::play::Play;
use super::process;
use super::shared;
use super::station::{Place, Station};

/// With so many processes at the most the buffers stand beside X, Bank and
/// Help.
const SIDE_BY_SIDE: usize = 4;

/// The columns left of the buffers.
const LEFT: usize = 48;

/// The lines above the part that scrolls, and the one below it.
const HEAD: usize = 5;
const FOOT: usize = 1;

const KEYS: &str = "arrows  n answer  c access  x link lost  h halt  ? keys  q end";

/// What all keys do.
pub const HELP: [&str; 16] = [
    "right, . space    one entry forward",
    "left, backspace , one entry back",
    "Home <, End >     the set-up, the last entry",
    "n, N              the next answer, the one before",
    "up, down, k, j    another process is chosen (>), a digit chooses by number",
    "c, C              its next access, the one before",
    "x, X              where it loses its link on X next, or did before",
    "h                 it is halted: it takes no more turns, and its entries of",
    "                  the text are left out from here on; or it goes on",
    "PgUp PgDn, u d    the rest of the state, where it has more lines",
    "q, Ctrl-C         the end",
    "",
    "A star is at what the entry changed. What a line of Figure 2 does is in",
    "docs/FIGURE-2.md, the trace's line in docs/TRACE.md.",
    "",
    "Any key goes back.",
];

/// Where one is in a play, and what of it is seen.
pub struct View {
    pub at: usize,
    pub chosen: usize,
    /// The lines of the lower part that are above the screen.
    pub above: usize,
    pub refused: Option<String>,
}

impl View {
    pub fn lines(&mut self, play: &Play, columns: usize, rows: usize) -> Vec<String> {
        let now = play.state(self.at);
        let before = play.state(self.at.saturating_sub(1));
        let mut lines = self.head(play, &before, columns);
        lines.resize(HEAD, String::new());
        let body = body(play, &before, &now, self.chosen);
        let room = rows.saturating_sub(HEAD + FOOT).max(1);
        self.above = self.above.min(body.len().saturating_sub(room));
        lines.extend(body.iter().skip(self.above).take(room).cloned());
        lines.resize(rows.saturating_sub(FOOT).max(HEAD), String::new());
        let more = match (self.above, body.len() > self.above + room) {
            (0, false) => "",
            (_, true) => "  [d: more]",
            (_, false) => "  [u: more]",
        };
        lines.push(format!("{KEYS}{more}"));
        lines.iter().map(|line| cut(line, columns)).collect()
    }

    fn head(&self, play: &Play, before: &Station, columns: usize) -> Vec<String> {
        let mut lines = vec![format!("entry {} of {}", self.at, play.len())];
        match play.command(self.at) {
            None => lines.push("the set-up".to_string()),
            Some(command) => {
                lines.push(play.line(self.at).unwrap_or("").to_string());
                lines.extend(wrapped(&said(before, command), columns, 2));
            }
        }
        lines.resize(HEAD - 1, String::new());
        lines.push(self.notice(play));
        lines
    }

    /// Who is halted, what of the text is left out, where it is refused.
    fn notice(&self, play: &Play) -> String {
        let halted: Vec<String> = (0..play.halted.len())
            .filter(|p| play.halted[*p])
            .map(|p| p.to_string())
            .collect();
        let mut parts = Vec::new();
        if !halted.is_empty() {
            parts.push(format!("halted: {}", halted.join(" ")));
        }
        if play.len() != play.whole() {
            parts.push(format!("the text has {} entries", play.whole()));
        }
        match play.passed {
            0 => {}
            1 => parts.push("1 no longer fits".to_string()),
            many => parts.push(format!("{many} no longer fit")),
        }
        if let Some(words) = self.refused.as_ref().filter(|_| self.at == play.len()) {
            parts.push(words.clone());
        }
        parts.join("; ")
    }
}

/// The entry in words, by the state before it.
fn said(before: &Station, command: Command) -> String {
    let p = command.process;
    match command.order {
        Order::Ll => format!("process {p} starts an LL"),
        Order::Vl => format!("process {p} starts a VL"),
        Order::Sc(number) => format!("process {p} starts an SC of {number}"),
        Order::Step => match next(before, p) {
            Some(next) => {
                let (line, item, does) = (next.line, next.item, next.does);
                format!("process {p}, line {line}, {item}: {does}")
            }
            None => format!("process {p} makes a step"),
        },
    }
}

fn body(play: &Play, before: &Station, now: &Station, chosen: usize) -> Vec<String> {
    let mut lines: Vec<String> = (0..now.n)
        .map(|p| process_line(play, before, now, p, p == chosen))
        .collect();
    lines.extend(own(now, chosen));
    lines.push(String::new());
    let (shared, buffers) = (shared_lines(before, now), buffer_lines(before, now));
    if now.n > SIDE_BY_SIDE {
        lines.extend(shared);
        lines.extend(buffers);
        return lines;
    }
    for k in 0..shared.len().max(buffers.len()) {
        let left = shared.get(k).map_or("", String::as_str);
        let right = buffers.get(k).map_or("", String::as_str);
        lines.push(format!("{left:<LEFT$}{right}"));
    }
    lines
}

fn process_line(play: &Play, before: &Station, now: &Station, p: usize, chosen: bool) -> String {
    let pointer = if chosen { '>' } else { ' ' };
    let changed = star(call_of(before, p) != call_of(now, p));
    let doing = process::doing(now, p);
    let next = match next(now, p) {
        _ if play.halted[p] => "halted".to_string(),
        Some(next) => format!("at line {}, {}", next.line, next.item),
        None => String::new(),
    };
    format!("{pointer}{changed}process {p:<2} {doing:<38} {next}")
}

fn call_of(station: &Station, p: usize) -> [u64; 3] {
    let call = station.call(p);
    [call.point, call.halves, call.steps]
}

/// What the chosen process has for itself.
fn own(now: &Station, p: usize) -> [String; 2] {
    let (call, own) = (now.call(p), now.holding(p));
    let (b, c, d, e) = (call.b, call.c, call.d, call.e);
    let (mybuf, x, number) = (own.mybuf, own.x_buffer, own.x_number);
    let linked = shared::links_of(now, p);
    let (returned, offered) = (words(now.returned(p)), words(now.offered(p)));
    [
        format!("   mybuf {mybuf}  x buffer {x}, sequence number {number}  b c d e {b} {c} {d} {e}  linked {linked}"),
        format!("   returned {returned}  offered {offered}"),
    ]
}

fn shared_lines(before: &Station, now: &Station) -> Vec<String> {
    let (was, is) = (shared::rows(before), shared::rows(now));
    let line = |(was, is): (&[String; 3], &[String; 3])| {
        let [item, holds, linked] = is;
        let links = if linked == "-" { "" } else { linked };
        format!("{}{item:<8} {holds:<29} {links}", star(was != is))
    };
    was.iter().zip(&is).map(line).collect()
}

fn buffer_lines(before: &Station, now: &Station) -> Vec<String> {
    let (was, is) = (before.places(), now.places());
    (0..is.len())
        .map(|b| {
            let changed = was[b] != is[b] || before.buffer(b) != now.buffer(b);
            let place = match is[b] {
                Place::X => "X".to_string(),
                Place::Bank(i) => format!("Bank[{i}]"),
                Place::Owned(p) => format!("process {p}"),
            };
            let name = format!("BUF[{b}]");
            let words = words(now.buffer(b));
            format!("{}{name:<7} {place:<10} {words}", star(changed))
        })
        .collect()
}

fn star(changed: bool) -> char {
    if changed {
        '*'
    } else {
        ' '
    }
}

fn cut(line: &str, columns: usize) -> String {
    match line.char_indices().nth(columns) {
        None => line.to_string(),
        Some((end, _)) if columns < 2 => line[..end].to_string(),
        Some(_) => {
            let kept: String = line.chars().take(columns - 2).collect();
            format!("{kept}..")
        }
    }
}

/// The words in lines of so many columns, and so many lines.
fn wrapped(words: &str, columns: usize, most: usize) -> Vec<String> {
    let mut lines = vec![String::new()];
    for word in words.split(' ') {
        let last = lines.last_mut().expect("there is one");
        if last.is_empty() {
            last.push_str(word);
        } else if last.len() + 1 + word.len() <= columns || most == 1 {
            last.push(' ');
            last.push_str(word);
        } else {
            lines.push(word.to_string());
        }
    }
    lines.truncate(most);
    lines
}
