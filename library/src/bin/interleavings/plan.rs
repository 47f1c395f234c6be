//! The plan that is given: a bench, a list of calls for process 0 and one for
//! process 1, and how many turns each takes.

use std::fmt;

/// The largest number of a schedule text.
const LARGEST: u64 = 4_294_967_295;

/// A call, as a schedule text writes it after the number of its process.
#[derive(Clone, Copy, PartialEq, Eq, Debug)]
pub enum Call {
    Ll,
    Sc(u64),
    Vl,
}

impl fmt::Display for Call {
    fn fmt(&self, out: &mut fmt::Formatter) -> fmt::Result {
        match self {
            Call::Ll => write!(out, "l"),
            Call::Sc(value) => write!(out, "s{value}"),
            Call::Vl => write!(out, "v"),
        }
    }
}

#[derive(Clone, PartialEq, Eq, Debug)]
pub struct Plan {
    pub n: u64,
    pub w: u64,
    pub initial: u64,
    pub calls: [Vec<Call>; 2],
    /// None where each list runs to its end.
    pub turns: Option<[usize; 2]>,
}

impl Plan {
    /// `N W K`, a line of calls for process 0, one for process 1, and then
    /// `A B` or nothing. What is wrong is told with its line.
    pub fn read(text: &str) -> Result<Plan, String> {
        no_other_gaps(text)?;
        let lines: Vec<&str> = text.lines().collect();
        let (first, second, turns) = match lines[..] {
            [_, first, second] => (first, second, ""),
            [_, first, second, turns] => (first, second, turns),
            [_, _, _, _, ..] => return Err("line 5: nothing comes after line 4".to_string()),
            _ => return Err("three or four lines are wanted; --help says which".to_string()),
        };
        let [n, w, initial] = numbers(1, "N W K", lines[0])?;
        Ok(Plan {
            n,
            w,
            initial,
            calls: [calls(2, first)?, calls(3, second)?],
            turns: read_turns(turns)?,
        })
    }

    /// The first line of its schedule texts.
    pub fn first_line(&self) -> String {
        format!("{} {} {}\n", self.n, self.w, self.initial)
    }
}

/// Only spaces part what stands on a line, and only a line feed ends one.
fn no_other_gaps(text: &str) -> Result<(), String> {
    for (line, bytes) in text.split('\n').enumerate() {
        if let Some(column) = bytes.bytes().position(|byte| byte.is_ascii_control()) {
            let here = match bytes.as_bytes()[column] {
                b'\r' => "a carriage return".to_string(),
                b'\t' => "a tab".to_string(),
                byte => format!("byte {byte}"),
            };
            let (line, column) = (line + 1, column + 1);
            return Err(format!(
                "line {line}, column {column}: only spaces and line feeds part a plan; here is {here}"
            ));
        }
    }
    Ok(())
}

fn read_turns(line: &str) -> Result<Option<[usize; 2]>, String> {
    if line.trim().is_empty() {
        return Ok(None);
    }
    let turns = numbers(4, "A B, the turns of each process", line)?;
    Ok(Some(turns.map(|count: u64| count as usize)))
}

/// The numbers of a line that has so many.
fn numbers<const COUNT: usize>(
    line: usize,
    wanted: &str,
    text: &str,
) -> Result<[u64; COUNT], String> {
    let words: Vec<&str> = text.split_ascii_whitespace().collect();
    let wrong = || format!("line {line}: {wanted} is wanted, and here is '{text}'");
    let words: [&str; COUNT] = words.try_into().map_err(|_| wrong())?;
    let mut all = [0; COUNT];
    for (place, word) in words.iter().enumerate() {
        all[place] = number(word).ok_or_else(wrong)?;
    }
    Ok(all)
}

/// A number as in a schedule text: at most ten digits, no leading zero.
fn number(word: &str) -> Option<u64> {
    let digits = word.bytes().all(|byte| byte.is_ascii_digit());
    let plain = word == "0" || !word.starts_with('0');
    let value = word.parse().ok()?;
    (digits && plain && value <= LARGEST).then_some(value)
}

fn calls(line: usize, text: &str) -> Result<Vec<Call>, String> {
    let wrong =
        |word| format!("line {line}: a call is l, v, or s with a number, and here is '{word}'");
    let read = |word| call(word).ok_or_else(|| wrong(word));
    text.split_ascii_whitespace().map(read).collect()
}

fn call(word: &str) -> Option<Call> {
    match word {
        "l" => Some(Call::Ll),
        "v" => Some(Call::Vl),
        _ => word.strip_prefix('s').and_then(number).map(Call::Sc),
    }
}

#[cfg(test)]
mod tests {
    use super::*;

    #[test]
    fn plans_that_are_right() {
        let plan = Plan::read("2 1 5\nl s7  v\n\n12 9\n").unwrap();
        assert_eq!(plan.calls, [vec![Call::Ll, Call::Sc(7), Call::Vl], vec![]]);
        assert_eq!(plan.turns, Some([12, 9]));
        assert_eq!(plan.first_line(), "2 1 5\n");
        let to_the_end = Plan::read("16 64 4294967295\ns4294967295\nl").unwrap();
        assert_eq!(to_the_end.calls[0], [Call::Sc(4_294_967_295)]);
        assert_eq!(to_the_end.turns, None);
        assert_eq!(Plan::read("2 1 5\nl\nl\n\n").unwrap().turns, None);
    }

    #[test]
    fn plans_that_are_not() {
        let wrong = [
            ("", "three or four lines"),
            ("2 1 5\nl\n", "three or four lines"),
            ("2 1\nl\nl\n", "line 1: N W K"),
            ("2 1 05\nl\nl\n", "line 1: N W K"),
            ("2 1 4294967296\nl\nl\n", "line 1: N W K"),
            ("2 1 -5\nl\nl\n", "line 1: N W K"),
            ("2 1 5\nl 0s7\nl\n", "line 2: a call"),
            ("2 1 5\nl s07\nl\n", "line 2: a call"),
            ("2 1 5\nl\ns\n", "line 3: a call"),
            ("2 1 5\nl\nl\n12\n", "line 4: A B"),
            ("2 1 5\nl\nl\n1 2 3\n", "line 4: A B"),
            ("2 1 5\nl\nl\n1 2\n3\n", "line 5"),
            ("2 1 5\r\nl\r\nl\r\n", "line 1, column 6: only spaces"),
            ("2 1 5\nl\tv\nl\n", "line 2, column 2: only spaces"),
            ("2 1 5\nl\nl\x0cv\n", "line 3, column 2: only spaces"),
        ];
        for (text, told) in wrong {
            let error = Plan::read(text).unwrap_err();
            assert!(error.starts_with(told), "{text:?}: {error}");
        }
    }
}
