//! A body carried out more often than one count allows.

/// The body `times` times, at most 255 x 255 + 255, in groups.
pub fn repeat(body: &str, times: usize) -> String {
    let mut groups = Vec::new();
    let (full, rest) = (times / 255, times % 255);
    if full > 0 {
        groups.push(format!("{full}(255({body}))"));
    }
    if rest > 0 {
        groups.push(format!("{rest}({body})"));
    }
    groups.join(" ")
}

#[cfg(test)]
mod tests {
    use super::repeat;

    #[test]
    fn counts_add_up() {
        assert_eq!(repeat("0.", 0), "");
        assert_eq!(repeat("0.", 254), "254(0.)");
        assert_eq!(repeat("0.", 255), "1(255(0.))");
        assert_eq!(repeat("0.", 600), "2(255(0.)) 90(0.)");
    }
}
