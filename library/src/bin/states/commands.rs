//! The commands that a trace names: each of its lines but the last is one
//! (docs/TRACE.md).

/// What a command orders; an SC with the number behind its `s`.
#[derive(Clone, Copy, PartialEq, Eq, Debug)]
pub enum Order {
    Step,
    Ll,
    Sc(u64),
    Vl,
}

#[derive(Clone, Copy, PartialEq, Eq, Debug)]
pub struct Command {
    pub process: usize,
    pub order: Order,
}

impl Command {
    /// None of a line that is no command's.
    pub fn read(line: &str) -> Option<Command> {
        let mut fields = line.split(' ').skip(1);
        let process = fields.next()?.parse().ok()?;
        let order = match fields.next()? {
            "start" => start(fields.next()?, fields.next())?,
            _ => Order::Step,
        };
        Some(Command { process, order })
    }
}

fn start(letter: &str, number: Option<&str>) -> Option<Order> {
    match (letter, number) {
        ("L", None) => Some(Order::Ll),
        ("V", None) => Some(Order::Vl),
        ("S", Some(number)) => number.parse().ok().map(Order::Sc),
        _ => None,
    }
}
