//! The port behind its archive: the Rust crate's own safe functions, and its layout; and the same by hand, to measure it against.

pub mod by_hand;
#[path = "../../../rust/src/layout.rs"]
pub mod layout;
#[path = "../../../rust/src/raw.rs"]
pub mod raw;
