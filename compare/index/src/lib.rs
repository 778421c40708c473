//! The port behind its archive: the Rust crate's own safe functions, and its layout.

#[path = "../../../rust/src/layout.rs"]
pub mod layout;
#[path = "../../../rust/src/raw.rs"]
pub mod raw;
