//! The variables of Figure 6, and the set-up.

use std::collections::BTreeMap;

use super::wrong::Wrong;

/// The tag has sixteen bits.
pub const TAGS: u32 = 65_536;

#[derive(Clone, Copy, PartialEq, Eq, Debug, Default)]
pub(super) struct Header {
    pub tag: u32,
    pub pid: usize,
}

#[derive(Clone, Copy, PartialEq, Eq, Debug, Default)]
pub(super) struct Segment {
    pub tag: u32,
    pub val: u64,
}

impl std::fmt::Display for Header {
    fn fmt(&self, f: &mut std::fmt::Formatter) -> std::fmt::Result {
        write!(f, "{} {}", self.tag, self.pid)
    }
}

impl std::fmt::Display for Segment {
    fn fmt(&self, f: &mut std::fmt::Formatter) -> std::fmt::Result {
        write!(f, "{} {}", self.tag, self.val)
    }
}

/// The line whose access comes next. Copy has one set of lines; whose Copy
/// it is stands in `Process::storing`.
#[derive(Clone, Copy, PartialEq, Eq, Debug)]
pub(super) enum Line {
    Idle,
    L2,
    L4,
    L5,
    L6,
    L7,
    L10,
    L13,
    L14,
    L17,
    L19,
}

pub(super) struct Process {
    pub line: Line,
    pub storing: bool,
    pub i: usize,
    pub count: u64,
    pub linked: bool,
    pub keep: u32,
    pub x: Header,
    pub oldhdr: Header,
    pub newhdr: Header,
    pub y: Segment,
    pub z: Segment,
    pub retval: Vec<u64>,
    pub newval: Vec<u64>,
}

pub struct Bench {
    pub(super) n: usize,
    pub(super) w: usize,
    pub(super) tags: u32,
    pub(super) hdr: Header,
    pub(super) data: Vec<Segment>,
    pub(super) a: Vec<Vec<u64>>,
    pub(super) processes: Vec<Process>,
    pub(super) wrong: Option<Wrong>,
    pub(super) reached: BTreeMap<&'static str, u64>,
    /// The line and the access of the last step, as a trace shows them.
    pub(super) seen: String,
    successes: u64,
}

impl Bench {
    /// The set-up; takes refusals 1, 2 and 8. All tags are 0, the header
    /// names process 0, the segments and A[0] hold the value.
    pub fn set_up(n: u64, w: u64, value: &[u64], tags: u32) -> Result<Bench, u8> {
        if !(1..=16).contains(&n) {
            return Err(1);
        }
        if !(1..=64).contains(&w) {
            return Err(2);
        }
        if value.len() as u64 != w {
            return Err(8);
        }
        let (n, w) = (n as usize, w as usize);
        let mut a = vec![vec![0; w]; n];
        a[0] = value.to_vec();
        Ok(Bench {
            n,
            w,
            tags,
            hdr: Header::default(),
            data: value.iter().map(|&val| Segment { tag: 0, val }).collect(),
            a,
            processes: (0..n).map(|_| idle(w)).collect(),
            wrong: None,
            reached: BTreeMap::new(),
            seen: String::new(),
            successes: 0,
        })
    }

    /// The bench read wrongly.
    pub fn misread(mut self, wrong: Option<Wrong>) -> Bench {
        self.wrong = wrong;
        self
    }

    pub(super) fn reads(&self, wrong: Wrong) -> bool {
        self.wrong == Some(wrong)
    }

    pub(super) fn note(&mut self, what: &'static str) {
        *self.reached.entry(what).or_default() += 1;
    }

    pub(super) fn succeeded(&mut self) {
        self.successes += 1;
    }

    pub fn is_idle(&self, p: usize) -> bool {
        self.processes[p].line == Line::Idle
    }

    /// Whether a WLL of p was ever answered, with words or with a process.
    pub fn has_linked(&self, p: usize) -> bool {
        self.processes[p].linked
    }

    /// The CASes on the header that succeeded.
    pub fn successes(&self) -> u64 {
        self.successes
    }

    /// Whether p's open call is an SC past its CAS on the header.
    pub fn has_stored(&self, p: usize) -> bool {
        let me = &self.processes[p];
        me.storing && !matches!(me.line, Line::Idle | Line::L14 | Line::L17 | Line::L19)
    }

    pub fn seen(&self) -> &str {
        &self.seen
    }

    /// What happened, and how often.
    pub fn reached(&self) -> &BTreeMap<&'static str, u64> {
        &self.reached
    }
}

fn idle(w: usize) -> Process {
    Process {
        line: Line::Idle,
        storing: false,
        i: 0,
        count: 0,
        linked: false,
        keep: 0,
        x: Header::default(),
        oldhdr: Header::default(),
        newhdr: Header::default(),
        y: Segment::default(),
        z: Segment::default(),
        retval: vec![0; w],
        newval: vec![0; w],
    }
}
