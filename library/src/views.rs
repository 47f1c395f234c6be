//! The view of a written value.

use crate::refusals::{outcome, Refusal};

#[repr(C)]
struct Part {
    number: u8,
    written: bool,
    start: usize,
    count: usize,
}

extern "C" {
    fn besklaun_view(
        w: usize,
        value: *const u64,
        value_count: usize,
        written: *const u64,
        written_count: usize,
        k: usize,
    ) -> Part;
}

/// The words of success k, of a record that begins with `value` and to which
/// successes wrote the values of `written`, w words each, in their order.
/// Success 0 is the value with which it begins.
pub fn view<'a>(
    w: usize,
    value: &'a [u64],
    written: &'a [u64],
    k: usize,
) -> Result<&'a [u64], Refusal> {
    // SAFETY: pointers and counts are those of slices
    let part = unsafe {
        besklaun_view(
            w,
            value.as_ptr(),
            value.len(),
            written.as_ptr(),
            written.len(),
            k,
        )
    };
    outcome(part.number)?;
    let slice = if part.written { written } else { value };
    Ok(&slice[part.start..][..part.count])
}
