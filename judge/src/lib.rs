//! The judge: the published Rust parser as the oracle for the port, with what is needed to ask it.
//!
//! The ten modules under `ddpmeta/` are the published files, byte for byte (a test holds them
//! against their checksums). `cut` answers what the contract, docs/FORMAT.md, asks of a parse: it is
//! `ac3::parse` stopped where `audio_end` is set, with rows, refusal numbers and the room rule.
//! `agree` holds the two against each other on every input that is made here.

// Formatting stays out of the published files: they are to stay as they are.
#[rustfmt::skip]
#[path = "../ddpmeta/ac3.rs"]
pub mod ac3;
#[rustfmt::skip]
#[path = "../ddpmeta/alloc.rs"]
pub mod alloc;
#[rustfmt::skip]
#[path = "../ddpmeta/bitalloc_tables.rs"]
pub mod bitalloc_tables;
#[rustfmt::skip]
#[path = "../ddpmeta/bits.rs"]
pub mod bits;
#[rustfmt::skip]
#[path = "../ddpmeta/blocks.rs"]
pub mod blocks;
#[rustfmt::skip]
#[path = "../ddpmeta/crc.rs"]
pub mod crc;
#[rustfmt::skip]
#[path = "../ddpmeta/error.rs"]
pub mod error;
#[rustfmt::skip]
#[path = "../ddpmeta/frame.rs"]
pub mod frame;
#[rustfmt::skip]
#[path = "../ddpmeta/syntax.rs"]
pub mod syntax;
#[rustfmt::skip]
#[path = "../ddpmeta/tables.rs"]
pub mod tables;

pub mod agree;
pub mod aht;
pub mod aht_cases;
pub mod apart;
pub mod apart_cases;
pub mod burst;
pub mod burst_cases;
pub mod cases;
pub mod corners;
pub mod craft;
pub mod cut;
pub mod draw;
pub mod edit;
pub mod edit_cases;
pub mod features;
pub mod frames;
pub mod goals;
pub mod hex;
pub mod index;
pub mod layout;
pub mod level;
pub mod list;
pub mod listing;
pub mod mantissas;
pub mod moving;
pub mod names;
pub mod packed;
pub mod parts;
pub mod pieces;
pub mod profile;
pub mod profile_cases;
pub mod replay;
pub mod rng;
pub mod salvage;
