//! The keys: what each asks for, by its bytes.

/// What a key asks for; those that jump, to the next one or to the one before.
#[derive(Clone, Copy, PartialEq, Eq, Debug)]
pub enum Asked {
    Forward,
    Back,
    First,
    Last,
    Answer(Way),
    Access(Way),
    Loss(Way),
    ProcessBefore,
    ProcessAfter,
    Process(usize),
    Halt,
    PageUp,
    PageDown,
    Help,
    Quit,
}

#[derive(Clone, Copy, PartialEq, Eq, Debug)]
pub enum Way {
    On,
    Back,
}

/// The bytes that a key sends: a terminal's escapes, and letters for who has
/// no such keys. The letters are the page's where it has them.
const KEYS: [(&[u8], Asked); 38] = [
    (b"\x1b[C", Asked::Forward),
    (b"\x1bOC", Asked::Forward),
    (b" ", Asked::Forward),
    (b".", Asked::Forward),
    (b"\x1b[D", Asked::Back),
    (b"\x1bOD", Asked::Back),
    (b"\x7f", Asked::Back),
    (b",", Asked::Back),
    (b"\x1b[H", Asked::First),
    (b"\x1bOH", Asked::First),
    (b"\x1b[1~", Asked::First),
    (b"\x1b[7~", Asked::First),
    (b"<", Asked::First),
    (b"\x1b[F", Asked::Last),
    (b"\x1bOF", Asked::Last),
    (b"\x1b[4~", Asked::Last),
    (b"\x1b[8~", Asked::Last),
    (b">", Asked::Last),
    (b"n", Asked::Answer(Way::On)),
    (b"N", Asked::Answer(Way::Back)),
    (b"c", Asked::Access(Way::On)),
    (b"C", Asked::Access(Way::Back)),
    (b"x", Asked::Loss(Way::On)),
    (b"X", Asked::Loss(Way::Back)),
    (b"\x1b[A", Asked::ProcessBefore),
    (b"\x1bOA", Asked::ProcessBefore),
    (b"k", Asked::ProcessBefore),
    (b"\x1b[B", Asked::ProcessAfter),
    (b"\x1bOB", Asked::ProcessAfter),
    (b"j", Asked::ProcessAfter),
    (b"h", Asked::Halt),
    (b"\x1b[5~", Asked::PageUp),
    (b"u", Asked::PageUp),
    (b"\x1b[6~", Asked::PageDown),
    (b"d", Asked::PageDown),
    (b"?", Asked::Help),
    (b"q", Asked::Quit),
    (b"\x03", Asked::Quit),
];

/// Bytes that were read and make no whole key yet.
#[derive(Default)]
pub struct Keys {
    left: Vec<u8>,
}

impl Keys {
    /// The keys of some more bytes; what no key sends is passed over.
    pub fn of(&mut self, bytes: &[u8]) -> Vec<Asked> {
        self.left.extend(bytes);
        let mut asked = Vec::new();
        while let Some(&first) = self.left.first() {
            let whole = KEYS.iter().find(|(key, _)| self.left.starts_with(key));
            if let Some((key, meant)) = whole {
                asked.push(*meant);
                self.left.drain(..key.len());
            } else if KEYS.iter().any(|(key, _)| key.starts_with(&self.left)) {
                break;
            } else {
                if first.is_ascii_digit() {
                    asked.push(Asked::Process(usize::from(first - b'0')));
                }
                self.left.remove(0);
            }
        }
        asked
    }

    /// No more bytes came: what is left is no key.
    pub fn none_came(&mut self) {
        self.left.clear();
    }
}
