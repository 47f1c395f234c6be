//! Copy of Figure 6, lines 1 to 9, with CR 8's further step in place of
//! `y := z`. In a WLL hdr is x and save is retval; in an SC hdr is newhdr
//! and nothing is saved.

use super::bench::{Bench, Line, Segment};
use super::command::Reply;
use super::wrong::Wrong;

impl Bench {
    pub(super) fn copy(&mut self, p: usize) -> Option<Reply> {
        match self.processes[p].line {
            Line::L2 => self.line2(p),
            Line::L4 => self.line4(p),
            Line::L5 => self.line5(p),
            Line::L6 => self.line6(p),
            _ => return self.line7(p),
        }
        None
    }

    /// Lines 2 and 3.
    fn line2(&mut self, p: usize) {
        let any_other = self.reads(Wrong::AnyOtherTagLine3);
        let me = &mut self.processes[p];
        let hdr = if me.storing { me.newhdr } else { me.x };
        me.y = self.data[me.i];
        self.seen = format!("2 data[{}] read {}", me.i, me.y);
        let before = (hdr.tag + self.tags - 1) % self.tags;
        let stale = if any_other {
            me.y.tag != hdr.tag
        } else {
            me.y.tag == before
        };
        me.line = if stale { Line::L4 } else { Line::L7 };
    }

    fn line4(&mut self, p: usize) {
        let me = &mut self.processes[p];
        let hdr = if me.storing { me.newhdr } else { me.x };
        me.z = Segment {
            tag: hdr.tag,
            val: self.a[hdr.pid][me.i],
        };
        self.seen = format!("4 A[{}][{}] read {}", hdr.pid, me.i, me.z.val);
        me.line = Line::L5;
    }

    fn line5(&mut self, p: usize) {
        let plain = self.reads(Wrong::PlainLine5);
        let printed = self.reads(Wrong::PrintedLine6);
        let me = &mut self.processes[p];
        let done = self.data[me.i] == me.y || plain;
        self.seen = format!("5 data[{}] CAS {} {} {done}", me.i, me.y, me.z);
        if done {
            self.data[me.i] = me.z;
        }
        me.line = Line::L6;
        if printed {
            me.y = me.z;
            me.line = Line::L7;
        }
        let storing = me.storing;
        self.note(match (storing, done) {
            (false, true) => "a WLL copies a word",
            (false, false) => "a WLL's CAS on a segment fails",
            (true, true) => "an SC copies a word",
            (true, false) => "an SC's CAS on a segment fails",
        });
    }

    /// The further step: the segment, read again into y.
    fn line6(&mut self, p: usize) {
        let me = &mut self.processes[p];
        me.y = self.data[me.i];
        self.seen = format!("6 data[{}] read {}", me.i, me.y);
        me.line = Line::L7;
        if me.y != me.z {
            self.note("the second read finds another word than A's");
        }
    }

    /// Lines 7 to 9, and what WLL and SC make of Copy's answer.
    fn line7(&mut self, p: usize) -> Option<Reply> {
        let unseen = self.reads(Wrong::UnseenLine7);
        let me = &mut self.processes[p];
        let hdr = if me.storing { me.newhdr } else { me.x };
        let h = self.hdr;
        self.seen = format!("7 hdr read {h}");
        let storing = me.storing;
        if h != hdr && !unseen {
            self.note(match storing {
                false => "a WLL names a process",
                true => "an SC's Copy ends early",
            });
            return Some(match storing {
                false => Reply::Named(h.pid),
                true => Reply::Stored(true),
            });
        }
        if !storing {
            me.retval[me.i] = me.y.val;
        }
        me.i += 1;
        me.line = Line::L2;
        if me.i < self.w {
            return None;
        }
        let retval = me.retval.clone();
        self.note(match storing {
            false => "a WLL answers words",
            true => "an SC's Copy ends with its last word",
        });
        Some(match storing {
            false => Reply::Loaded(retval),
            true => Reply::Stored(true),
        })
    }
}
