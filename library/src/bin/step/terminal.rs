//! The terminal: its keys one by one while the program runs, and as it was
//! before when it ends, however it ends.

use std::io::{self, IsTerminal, Read, Write};
use std::process::{Command, Stdio};

/// The smallest screen that is drawn for; a smaller one shows a part of it.
const COLUMNS: usize = 80;
const ROWS: usize = 24;

/// Another screen, with no cursor; and back.
const ENTER: &str = "\x1b[?1049h\x1b[?25l";
const LEAVE: &str = "\x1b[?25h\x1b[?1049l";

pub struct Terminal {
    /// How `stty` says that it stood.
    before: String,
}

impl Terminal {
    /// Keys come as they are pressed, Ctrl-C among them, and a look for one
    /// ends after half a second.
    pub fn enter() -> Result<Terminal, String> {
        if !io::stdin().is_terminal() {
            return Err("standard input is no terminal, and the keys come from one".to_string());
        }
        if !io::stdout().is_terminal() {
            return Err(
                "standard output is no terminal, and the state is shown on one".to_string(),
            );
        }
        let before = stty(&["-g"])?;
        let terminal = Terminal { before };
        stty(&[
            "-icanon", "-echo", "-isig", "-ixon", "min", "0", "time", "5",
        ])?;
        put(ENTER).map_err(|error| format!("the terminal can't be written: {error}"))?;
        Ok(terminal)
    }

    /// Columns and rows.
    pub fn size(&self) -> (usize, usize) {
        let said = stty(&["size"]).unwrap_or_default();
        let mut numbers = said.split(' ').map(|word| word.parse().unwrap_or(0));
        let rows = numbers.next().filter(|rows| *rows > 0);
        let columns = numbers.next().filter(|columns| *columns > 0);
        (columns.unwrap_or(COLUMNS), rows.unwrap_or(ROWS))
    }

    /// The bytes of the keys that were pressed; none after half a second
    /// without.
    pub fn read(&self) -> io::Result<Vec<u8>> {
        let mut bytes = [0; 64];
        match io::stdin().lock().read(&mut bytes) {
            Ok(count) => Ok(bytes[..count].to_vec()),
            Err(error) if error.kind() == io::ErrorKind::Interrupted => Ok(Vec::new()),
            Err(error) => Err(error),
        }
    }

    /// The lines in place of what was shown.
    pub fn show(&self, lines: &[String]) -> io::Result<()> {
        let lines: Vec<String> = lines.iter().map(|line| format!("{line}\x1b[K")).collect();
        put(&format!("\x1b[H{}\x1b[J", lines.join("\r\n")))
    }
}

impl Drop for Terminal {
    fn drop(&mut self) {
        let _ = put(LEAVE);
        let _ = stty(&[&self.before]);
    }
}

fn put(text: &str) -> io::Result<()> {
    let mut out = io::stdout().lock();
    out.write_all(text.as_bytes())?;
    out.flush()
}

/// What `stty` says; it works on standard input, which it has from here.
fn stty(arguments: &[&str]) -> Result<String, String> {
    let mut call = Command::new("stty");
    let call = call.args(arguments).stdin(Stdio::inherit());
    let said = call.stderr(Stdio::null()).output();
    match said {
        Ok(said) if said.status.success() => {
            Ok(String::from_utf8_lossy(&said.stdout).trim().to_string())
        }
        Ok(_) => Err(format!("'stty {}' failed", arguments.join(" "))),
        Err(error) => Err(format!("no 'stty' to set the terminal: {error}")),
    }
}
