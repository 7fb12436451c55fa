//! Document 01's sizes and limits.

/// The bytes of a record.
pub const RECORD: usize = 20;

/// The most records that a table may have.
pub const MOST: usize = 65_535;

/// The longest input and the longest result, in bytes.
pub const LONGEST: usize = 65_535;

/// The deepest nesting of bundles and arrays together, and the highest depth limit.
pub const DEEPEST: u64 = 64;
