//! A step: one access, and where it leaves its process. The lines are in
//! `load` and `store`; line 23 is so short that it stands here.

use super::access::Seen;
use super::bench::Bench;
use super::command::{Answer, Reply};
use super::half::Half;
use super::process::{Line, Own, Process, Tag};
use super::record::Record;
use super::tally::Tally;
use super::wrong::Wrong;

/// Where a step leaves its process.
pub(super) enum After {
    At(Line),
    Answer(Reply),
}

impl After {
    /// One line or another, by what the step found.
    pub(super) fn either(found: bool, yes: Line, no: Line) -> After {
        After::At(if found { yes } else { no })
    }
}

/// All that a step can reach: the record of its call and its own process.
pub(super) struct Step<'a> {
    pub n: usize,
    pub w: usize,
    pub p: usize,
    pub record: &'a mut Record,
    pub me: &'a mut Process,
    pub seen: &'a mut Seen,
    pub tally: &'a mut Tally,
    pub wrong: Option<Wrong>,
}

impl Bench {
    pub(super) fn step(&mut self, p: usize) -> Option<Answer> {
        self.processes[p].count += 1;
        self.note_stop(p);
        let me = &mut self.processes[p];
        self.seen = Seen::nothing_yet(me.line, me.record);
        let after = Step {
            n: self.n,
            w: self.w,
            p,
            record: &mut self.records[me.record],
            me,
            seen: &mut self.seen,
            tally: &mut self.tally,
            wrong: self.wrong,
        }
        .access();
        assert!(self.seen.access.is_some(), "a step makes an access");
        match after {
            After::At(line) => {
                self.processes[p].line = line;
                None
            }
            After::Answer(reply) => Some(self.answer(p, reply)),
        }
    }

    fn answer(&mut self, process: usize, reply: Reply) -> Answer {
        let me = &mut self.processes[process];
        let count = me.count;
        me.count = 0;
        me.line = Line::Idle;
        me.record = 0;
        self.tally.answered(&reply, count, self.w);
        Answer {
            process,
            count,
            reply,
        }
    }

    /// A word whose high half comes next may have been left so for others.
    fn note_stop(&mut self, p: usize) {
        let me = &self.processes[p];
        if me.half_to_move().1 == Half::High && self.latest != p {
            self.tally.halted(me.line);
        }
        self.latest = p;
    }
}

impl Step<'_> {
    fn access(mut self) -> After {
        match self.me.line {
            Line::Idle => unreachable!("a step at an idle process was refused"),
            Line::L1 => self.line1(),
            Line::L2 => self.line2(),
            Line::L3 => self.line3(),
            Line::L4 => self.line4(),
            Line::L5 => self.line5(),
            Line::L6 => self.line6(),
            Line::L7Validate => self.line7_validate(),
            Line::L7Copy => self.line7_copy(),
            Line::L8 => self.line8(),
            Line::L9 => self.line9(),
            Line::L10 => self.line10(),
            Line::L11 => self.line11(),
            Line::L12 => self.line12(),
            Line::L12Validate => self.line12_validate(),
            Line::L13 => self.line13(),
            Line::L14 => self.line14(),
            Line::L14Validate => self.line14_validate(),
            Line::L15 => self.line15(),
            Line::L17 => self.line17(),
            Line::L18 => self.line18(),
            Line::L19 => self.line19(),
            Line::L23 => self.line23(),
        }
    }

    fn line23(&mut self) -> After {
        After::Answer(Reply::Validated(self.validate_x()))
    }

    pub(super) fn reads(&self, wrong: Wrong) -> bool {
        self.wrong == Some(wrong)
    }

    /// The process's set for the record of its call.
    pub(super) fn own(&mut self) -> &mut Own {
        self.me.own()
    }

    pub(super) fn link_x(&mut self) -> Tag {
        self.record.x.ll(self.p, self.seen)
    }

    pub(super) fn validate_x(&mut self) -> bool {
        self.record.x.vl(self.p, self.seen)
    }

    /// Moves the word place on after a half; tells whether it was the last
    /// of the 2W.
    pub(super) fn was_last_move(&mut self) -> bool {
        self.me.word_place = (self.me.word_place + 1) % (2 * self.w);
        self.me.word_place == 0
    }
}
