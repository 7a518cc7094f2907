//! A safe wrapper over the static library of the crate `capi`, and what the commands share.
pub mod arguments;
pub mod boards;
pub mod library;
pub mod orders;
pub mod timing;

/// The level of document 02 that the product stands at: its requests up to this one are in it.
pub const RULES: oracle::board::Rules = oracle::board::Rules { level: 7 };
