//! Wrong readings of Figure 6, to see that the search finds them.

#[derive(Clone, Copy, PartialEq, Eq, Debug)]
pub enum Wrong {
    /// Line 6 as printed, `y := z`, without the step of CR 8.
    PrintedLine6,
    /// Line 5 as a plain write.
    PlainLine5,
    /// Line 7 without its look at the header.
    UnseenLine7,
    /// Line 15 left out.
    NoLine15,
    /// Line 3 as `y.tag /= hdr.tag`.
    AnyOtherTagLine3,
}

impl Wrong {
    pub const ALL: [(&'static str, Wrong); 5] = [
        ("printed-line-6", Wrong::PrintedLine6),
        ("plain-line-5", Wrong::PlainLine5),
        ("unseen-line-7", Wrong::UnseenLine7),
        ("no-line-15", Wrong::NoLine15),
        ("other-tag-line-3", Wrong::AnyOtherTagLine3),
    ];
}
