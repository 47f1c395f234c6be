//! `step`: a schedule text stepped through at a terminal, forward and back, by
//! keys. Text run, steps and places are the proved library's; what stands here
//! is not proved: it takes the commands from the trace, and chooses the words.

mod keys;
mod play;
mod screen;
mod terminal;

#[path = "../states/buffers.rs"]
#[allow(dead_code)]
mod buffers;
#[path = "../states/commands.rs"]
mod commands;
#[path = "../states/next.rs"]
mod next;
#[path = "../states/process.rs"]
#[allow(dead_code)]
mod process;
#[path = "../states/run.rs"]
#[allow(dead_code)]
mod run;
#[path = "../states/shared.rs"]
mod shared;
#[path = "../interleavings/signals.rs"]
mod signals;
#[path = "../states/station.rs"]
mod station;

use std::fs::File;
use std::io::{self, Read, Write};
use std::process::ExitCode;

use keys::{Asked, Keys};
use play::Play;
use run::Run;
use screen::View;
use terminal::Terminal;

/// A text is no longer; one byte more is read of one that is.
const MOST_TEXT: u64 = 16_384;

/// The script gives the path of the text, and the name for messages.
fn main() -> ExitCode {
    let given: Vec<String> = std::env::args_os()
        .skip(1)
        .map(|word| word.to_string_lossy().into_owned())
        .collect();
    let [path, name] = &given[..] else {
        return trouble("these arguments make no call");
    };
    match called(path) {
        Ok(None) => ExitCode::SUCCESS,
        Ok(Some(refused)) => {
            say(&format!("{name}: {refused}"));
            ExitCode::from(1)
        }
        Err(words) => trouble(&words),
    }
}

fn trouble(words: &str) -> ExitCode {
    say(&format!("step: {words}"));
    ExitCode::from(2)
}

/// The status stays where standard error can't be written.
fn say(words: &str) {
    let _ = writeln!(io::stderr(), "{words}");
}

/// Why the text is refused, where it is.
fn called(path: &str) -> Result<Option<String>, String> {
    let text = text(path)?;
    let run = Run::of(&text);
    let refused = run.refused().map(String::from);
    let Some(sizes) = run.sizes() else {
        return Ok(refused);
    };
    let play = Play::of(&run, sizes, &text)?;
    stepped(play, refused.clone())?;
    Ok(refused)
}

fn text(path: &str) -> Result<Vec<u8>, String> {
    let mut text = Vec::new();
    let file = File::open(path);
    let read = file.and_then(|file| file.take(MOST_TEXT + 1).read_to_end(&mut text));
    read.map_err(|error| format!("'{path}' can't be read: {error}"))?;
    Ok(text)
}

/// Until the key for the end, or a signal.
fn stepped(mut play: Play, refused: Option<String>) -> Result<(), String> {
    let terminal = Terminal::enter()?;
    signals::watch(&[signals::INT, signals::TERM, signals::HUP]);
    let mut view = View {
        at: 0,
        chosen: 0,
        above: 0,
        refused,
    };
    let ended = looked_at(&terminal, &mut play, &mut view);
    drop(terminal);
    if signals::came() {
        signals::follow();
    }
    ended.map_err(|error| format!("the terminal is lost: {error}"))
}

fn looked_at(terminal: &Terminal, play: &mut Play, view: &mut View) -> io::Result<()> {
    let (mut keys, mut helping, mut size) = (Keys::default(), false, (0, 0));
    let mut pressed = Vec::new();
    while !signals::came() {
        let was = std::mem::replace(&mut size, terminal.size());
        for asked in &pressed {
            match asked {
                Asked::Quit => return Ok(()),
                _ if helping => helping = false,
                Asked::Help => helping = true,
                _ => obey(*asked, play, view, size.1),
            }
        }
        if was != size || !pressed.is_empty() {
            let lines = match helping {
                true => screen::HELP.map(String::from).to_vec(),
                false => view.lines(play, size.0, size.1),
            };
            terminal.show(&lines)?;
        }
        let bytes = terminal.read()?;
        pressed = keys.of(&bytes);
        if bytes.is_empty() {
            keys.none_came();
        }
    }
    Ok(())
}

fn obey(asked: Asked, play: &mut Play, view: &mut View, rows: usize) {
    let (at, chosen) = (view.at, view.chosen);
    let page = rows / 2;
    match asked {
        Asked::Forward => view.at = (at + 1).min(play.len()),
        Asked::Back => view.at = at.saturating_sub(1),
        Asked::First => view.at = 0,
        Asked::Last => view.at = play.len(),
        Asked::Answer(way) => view.at = play.answer(at, way).unwrap_or(at),
        Asked::Access(way) => view.at = play.access(at, way, chosen).unwrap_or(at),
        Asked::Loss(way) => view.at = play.loss(at, way, chosen).unwrap_or(at),
        Asked::ProcessBefore => view.chosen = chosen.saturating_sub(1),
        Asked::ProcessAfter => view.chosen = (chosen + 1).min(play.halted.len() - 1),
        Asked::Process(p) => view.chosen = if p < play.halted.len() { p } else { chosen },
        Asked::Halt => play.halt(at, chosen),
        Asked::PageUp => view.above = view.above.saturating_sub(page),
        Asked::PageDown => view.above += page,
        Asked::Help | Asked::Quit => {}
    }
}
