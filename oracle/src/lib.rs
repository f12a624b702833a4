//! The plain Rust counterpart of the proved programs, written from docs/ and not from their code.
pub mod book;
pub mod codec;
pub mod meaning;
pub mod random;
pub mod rehearse;
pub mod text;
