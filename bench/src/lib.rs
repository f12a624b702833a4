//! The proved codec, called through its static library, beside the plain Rust one.
pub mod proved;
