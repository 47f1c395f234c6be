use witness::machine::Wrong;
use witness::schedule::listing_of;

/// The listing of a text, its lines parted by " / " as document 01 does.
#[allow(dead_code)]
pub fn listing(text: &str) -> String {
    listing_when(text, None)
}

pub fn listing_when(text: &str, wrong: Option<Wrong>) -> String {
    let (bytes, outcome, _) = listing_of(text.as_bytes(), wrong);
    assert_eq!(bytes.len(), outcome.written);
    let listing = String::from_utf8(bytes).expect("a listing is plain text");
    let lines = listing.strip_suffix('\n').expect("the last line ends too");
    lines.replace('\n', " / ")
}
