//! A trace with marks, as the program `swaps` prints it.

use super::touch::may_change_places;
use super::trace_text::touches_of_trace;

/// The trace with two columns before each line: `~` and a space where its
/// entry may change places with the one before it, two spaces elsewhere.
pub fn marked(trace: &str) -> Result<String, String> {
    let touches = touches_of_trace(trace)?;
    let mut text = String::new();
    for (k, line) in trace.lines().enumerate() {
        let may =
            k > 0 && k < touches.len() && may_change_places(&touches[k - 1], &touches[k]).is_ok();
        text += if may { "~ " } else { "  " };
        text += line;
        text += "\n";
    }
    Ok(text)
}
