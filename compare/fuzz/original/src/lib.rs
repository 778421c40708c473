//! The published files once more, in a crate of their own: ../rustc compiles this crate, and no other, so that it counts its branches.
#![allow(dead_code)]

#[rustfmt::skip]
#[path = "../../../../judge/ddpmeta/ac3.rs"]
pub mod ac3;
#[rustfmt::skip]
#[path = "../../../../judge/ddpmeta/alloc.rs"]
mod alloc;
#[rustfmt::skip]
#[path = "../../../../judge/ddpmeta/bitalloc_tables.rs"]
mod bitalloc_tables;
#[rustfmt::skip]
#[path = "../../../../judge/ddpmeta/bits.rs"]
mod bits;
#[rustfmt::skip]
#[path = "../../../../judge/ddpmeta/blocks.rs"]
mod blocks;
#[rustfmt::skip]
#[path = "../../../../judge/ddpmeta/crc.rs"]
mod crc;
#[rustfmt::skip]
#[path = "../../../../judge/ddpmeta/error.rs"]
pub mod error;
#[rustfmt::skip]
#[path = "../../../../judge/ddpmeta/frame.rs"]
pub mod frame;
#[rustfmt::skip]
#[path = "../../../../judge/ddpmeta/syntax.rs"]
pub mod syntax;
#[rustfmt::skip]
#[path = "../../../../judge/ddpmeta/tables.rs"]
mod tables;
