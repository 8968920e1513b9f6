//! Which program this is.

pub const VERSION: &str = env!("CARGO_PKG_VERSION");

/// SHA-256 of the libcounter.a that is linked in.
pub const LIBRARY: &str = env!("COUNTER_LIB_SUM");
