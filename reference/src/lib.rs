//! The reference register in plain Rust, written from docs/ alone.

pub mod figures;
pub mod register;
pub mod rules;
pub mod script;
pub mod session;
pub mod text;
