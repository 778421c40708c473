//! The hand-overs that the crate's documentation describes, with the original's own files: its `read_tail` goes on where the audio ends, on
//! the crate's fields, and the list is the original's; and its callers of `aht` call the crate's walk.

#![allow(dead_code, unused_imports)] // of the original's files only a part is used
#![allow(clippy::incompatible_msrv)] // they need a later Rust than the crate

#[rustfmt::skip]
#[path = "../../judge/ddpmeta/bitalloc_tables.rs"]
mod bitalloc_tables;
#[rustfmt::skip]
#[path = "../../judge/ddpmeta/bits.rs"]
mod bits;
#[rustfmt::skip]
#[path = "../../judge/ddpmeta/crc.rs"]
mod crc;
#[rustfmt::skip]
#[path = "../../judge/ddpmeta/error.rs"]
mod error;
#[rustfmt::skip]
#[path = "../../judge/ddpmeta/frame.rs"]
mod frame;
#[rustfmt::skip]
#[path = "tail/syntax.rs"]
mod syntax;
#[rustfmt::skip]
#[path = "../../judge/ddpmeta/tables.rs"]
mod tables;

mod files;

use error::{Error, Result};
use frame::{read_tail, Codec};
use judge::aht::{can_be_published, published};
use judge::aht_cases::{Case, Sections};
use syntax::{Cursor, Field};

impl From<ferrysprig::Refusal> for Error {
    fn from(refusal: ferrysprig::Refusal) -> Error {
        Error::Invalid(refusal.to_string())
    }
}

pub fn fields(data: &[u8]) -> Result<Vec<Field>> {
    let frame = ferrysprig::parse(data)?;
    let total = frame.total_bits();
    let mut cur = Cursor {
        data,
        pos: frame.summary.audio_end,
        limit: total,
        fields: frame.fields,
        block: -1,
    };
    read_tail(&mut cur, total, Codec::Ac3)?;
    Ok(cur.fields)
}

impl From<ferrysprig::aht::Refusal> for Error {
    fn from(refusal: ferrysprig::aht::Refusal) -> Error {
        Error::Invalid(refusal.to_string())
    }
}

pub fn aht(cur: &mut Cursor<'_>, hebap: &[u8], start: usize, end: usize) -> Result<usize> {
    let section = ferrysprig::aht::walk(cur.data, cur.pos, cur.limit, hebap, start..end)?;
    cur.pos = section.end;
    Ok(section.tags)
}

#[test]
fn sections_by_the_originals_callers() {
    let mut met = [0; 2];
    let mut compare = |case: &Case<'_>| {
        if !can_be_published(&case.asked) {
            return;
        }
        let asked = &case.asked;
        let mut cur = Cursor {
            data: asked.data,
            pos: asked.at,
            limit: asked.end,
            fields: Vec::new(),
            block: -1,
        };
        let ours = aht(&mut cur, asked.hebap, asked.first, asked.past);
        let (original, _) = published(asked);
        met[usize::from(ours.is_ok())] += 1;
        match ours {
            Ok(tags) => assert_eq!(original, [0, cur.pos, tags]),
            Err(_) => assert_ne!(original[0], 0),
        }
    };
    Sections::new(2, &mut compare).run(0);
    assert!(met.iter().all(|times| *times > 5_000), "{met:?}");
}

#[test]
fn the_list_with_its_tail_is_the_originals() {
    let mut accepted = 0;
    for (name, stream) in files::frames() {
        let mut place = 0;
        while let Ok(original) = judge::ac3::parse(&stream[place..]) {
            let ours = fields(&stream[place..]).unwrap();
            assert_eq!(ours.len(), original.fields.len(), "{name}, byte {place}");
            for (f, o) in ours.iter().zip(&original.fields) {
                assert_eq!(
                    (f.name, f.block, f.index, f.pos, f.width, f.value),
                    (o.name, o.block, o.index, o.pos, o.width, o.value),
                    "{name}, byte {place}"
                );
                assert_eq!(format!("{:?}", f.role), format!("{:?}", o.role));
            }
            accepted += 1;
            place += original.bytes;
        }
    }
    assert!(accepted > 200, "{accepted} frames");
}

#[test]
fn a_refusal_becomes_the_callers_error() {
    assert_eq!(
        fields(b"not AC-3").unwrap_err().to_string(),
        "invalid stream: refusal 2 at bit 16: the sync word is not 0x0B77"
    );
}

/// The documentation's lines are the ones above, and the one in tail/syntax.rs.
#[test]
fn the_documentation_shows_what_is_compiled_here() {
    let compiled = files::text("rust/tests/tail.rs") + &files::text("rust/tests/tail/syntax.rs");
    let crate_text = files::text("rust/src/lib.rs") + &files::text("rust/src/aht.rs");
    let mut shown = 0;
    for block in crate_text.split("//! ```text\n").skip(1) {
        let (block, _) = block.split_once("//! ```\n").unwrap();
        let lines = block.lines().map(|line| line.trim_start_matches("//! "));
        let code: String = lines.flat_map(|line| [line, "\n"]).collect();
        assert!(compiled.contains(&code), "not compiled:\n{code}");
        shown += 1;
    }
    assert_eq!(shown, 4);
}

/// tail/syntax.rs is the original's but for what the documentation says: its two types, and how it makes elements.
#[test]
fn the_callers_syntax_is_the_originals() {
    let original = files::text("judge/ddpmeta/syntax.rs");
    let (head, rest) = original.split_once("/// What an element means").unwrap();
    let (_, cursor) = rest.split_once("/// Sequential reader").unwrap();
    let mut expected =
        format!("{head}pub use ferrysprig::{{Field, Role}};\n\n/// Sequential reader");
    let mut in_element = false;
    for line in cursor.split_inclusive('\n') {
        if let Some(before) = line.strip_suffix("push(Field {\n") {
            in_element = true;
            expected += &format!("{before}push(Field::new(\n");
        } else if in_element && line.trim() == "});" {
            in_element = false;
            expected += &line.replace('}', ")");
        } else if let (true, Some((part, value))) = (in_element, line.split_once(": ")) {
            let margin = part.len() - part.trim_start().len();
            expected += &part[..margin];
            expected += value;
        } else {
            expected += line;
        }
    }
    assert_eq!(files::text("rust/tests/tail/syntax.rs"), expected);
}
