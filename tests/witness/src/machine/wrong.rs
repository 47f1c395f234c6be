//! The five readings of Figure 2 that tear the record (01), so that a test
//! can be seen to fail and a user can see what each of them does.

#[derive(Clone, Copy, PartialEq, Eq, Debug)]
pub enum Wrong {
    /// Line 9 done as a plain write.
    Line9Plain,
    /// Line 10 taken as "keep mybuf".
    Line10Keeps,
    /// The VL(X) of line 14 left out.
    NoCheck14,
    /// Lines 6 and 7 skipped and the handed-over words taken.
    Skip6And7,
    /// The sequence number taken modulo N.
    SequenceModN,
}

impl Wrong {
    pub const ALL: [(&'static str, Wrong); 5] = [
        ("line9", Wrong::Line9Plain),
        ("line10", Wrong::Line10Keeps),
        ("line14", Wrong::NoCheck14),
        ("lines67", Wrong::Skip6And7),
        ("modn", Wrong::SequenceModN),
    ];

    pub fn named(name: &str) -> Option<Wrong> {
        Wrong::ALL
            .iter()
            .find(|(known, _)| *known == name)
            .map(|(_, wrong)| *wrong)
    }

    pub fn name(self) -> &'static str {
        let known = Wrong::ALL.iter().find(|(_, wrong)| *wrong == self);
        known.map_or("", |(name, _)| name)
    }
}
