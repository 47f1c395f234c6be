//! WLL, VL and SC of Figure 6, an access to a step. A line without an
//! access goes with the one before it.

use super::bench::{Bench, Header, Line};
use super::command::{Answer, Reply};
use super::wrong::Wrong;

impl Bench {
    pub(super) fn step(&mut self, p: usize) -> Option<Answer> {
        self.processes[p].count += 1;
        let reply = match self.processes[p].line {
            Line::Idle => unreachable!("a step at an idle process was refused"),
            Line::L10 => self.line10(p),
            Line::L13 => self.line13(p),
            Line::L14 => self.line14(p),
            Line::L17 => self.line17(p),
            Line::L19 => self.line19(p),
            _ => self.copy(p),
        }?;
        let me = &mut self.processes[p];
        let count = me.count;
        me.count = 0;
        me.i = 0;
        me.line = Line::Idle;
        me.linked |= matches!(reply, Reply::Loaded(_) | Reply::Named(_));
        Some(Answer {
            process: p,
            count,
            reply,
        })
    }

    fn line10(&mut self, p: usize) -> Option<Reply> {
        let me = &mut self.processes[p];
        self.seen = format!("10 hdr read {}", self.hdr);
        me.x = self.hdr;
        me.keep = me.x.tag;
        me.line = Line::L2;
        None
    }

    fn line13(&mut self, p: usize) -> Option<Reply> {
        self.seen = format!("13 hdr read {}", self.hdr);
        let valid = self.hdr.tag == self.processes[p].keep;
        self.note(if valid { "VL true" } else { "VL false" });
        Some(Reply::Validated(valid))
    }

    /// Lines 14 and 15.
    fn line14(&mut self, p: usize) -> Option<Reply> {
        let unlooked = self.reads(Wrong::NoLine15);
        let me = &mut self.processes[p];
        self.seen = format!("14 hdr read {}", self.hdr);
        me.oldhdr = self.hdr;
        if me.oldhdr.tag != me.keep && !unlooked {
            self.note("SC false at line 15");
            return Some(Reply::Stored(false));
        }
        me.line = Line::L17;
        None
    }

    /// Lines 16 to 18.
    fn line17(&mut self, p: usize) -> Option<Reply> {
        let me = &mut self.processes[p];
        self.seen = format!("17 A[{p}][{}] write {}", me.i, me.newval[me.i]);
        self.a[p][me.i] = me.newval[me.i];
        me.i += 1;
        if me.i == self.w {
            me.i = 0;
            me.newhdr = Header {
                tag: (me.oldhdr.tag + 1) % self.tags,
                pid: p,
            };
            me.line = Line::L19;
        }
        None
    }

    fn line19(&mut self, p: usize) -> Option<Reply> {
        let me = &mut self.processes[p];
        let done = self.hdr == me.oldhdr;
        self.seen = format!("19 hdr CAS {} {} {done}", me.oldhdr, me.newhdr);
        if !done {
            self.note("SC false at line 19");
            return Some(Reply::Stored(false));
        }
        self.hdr = me.newhdr;
        me.line = Line::L2;
        self.succeeded();
        None
    }
}
