//! The version of the library that is linked.

extern "C" {
    fn besklaun_version() -> u32;
}

/// The version of this package and of `besklaun.h`.
pub const VERSION: &str = env!("CARGO_PKG_VERSION");

/// The version of the library that is linked, as a number: 10,000 for each
/// major version, 100 for each minor one.
pub fn version() -> u32 {
    // SAFETY: it takes nothing
    unsafe { besklaun_version() }
}
