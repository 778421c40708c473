//! The names 1 to 111: their order is that of the published text, and docs/NAMES.md holds the table.

use judge::edit::editable;
use judge::layout::{row_at, NO_PART};
use judge::names::{fits, number, table, Part, COUNT, NAMES};
use judge::parts::PARTED;
use std::path::Path;

/// The texts between quotes in a line.
fn quoted(line: &str) -> Vec<&str> {
    line.split('"').skip(1).step_by(2).collect()
}

/// The line of `text` that begins (after spaces) with `start`, from line `from` on.
fn line_of<'a>(text: &'a str, start: &str, after: &str) -> &'a str {
    let mut lines = text.lines().skip_while(|line| !line.contains(after));
    lines
        .find(|line| line.trim_start().starts_with(start))
        .expect(start)
}

#[test]
fn order_is_that_of_the_published_text() {
    let (ac3, blocks) = (
        include_str!("../ddpmeta/ac3.rs"),
        include_str!("../ddpmeta/blocks.rs"),
    );
    let mut found: Vec<&str> = Vec::new();
    for line in ac3.lines() {
        if let Some((_, call)) = line.split_once("read_exponents(&mut cur, ") {
            let slot = call.split(',').next().unwrap();
            let arm = if slot == "ch" { "_" } else { slot };
            let names = line_of(blocks, &format!("{arm} => (\""), "fn read_exponents");
            found.extend(quoted(names));
        } else if let Some((_, call)) = line.split_once("read_delta(&mut cur, ") {
            let first = if call.starts_with("CPL") {
                "(\"cpldelt"
            } else {
                "(\"delt"
            };
            found.extend(quoted(line_of(blocks, first, "fn read_delta")));
        } else if !line.contains("invalid(") && !line.contains(".expect(") {
            found.extend(quoted(line));
        }
    }
    let mut first_met: Vec<&str> = Vec::new();
    for name in found {
        if !first_met.contains(&name) {
            first_met.push(name);
        }
    }
    let listed: Vec<&str> = NAMES.iter().map(|name| name.text).collect();
    assert_eq!(first_met, listed);
}

#[test]
fn anchors() {
    let anchors = [
        ("syncword", 1),
        ("dialnorm", 12),
        ("dialnorm2", 20),
        ("copyrightb", 28),
        ("addbsi", 48),
        ("chbwcod", 72),
        ("mantissas", 111),
    ];
    for (name, expected) in anchors {
        assert_eq!(number(name), expected, "{name}");
    }
    assert_eq!(COUNT, 111);
}

#[test]
fn the_document_holds_the_table() {
    let path = Path::new(env!("CARGO_MANIFEST_DIR")).join("../docs/NAMES.md");
    let document = std::fs::read_to_string(path).expect("docs/NAMES.md");
    assert!(
        document.contains(&table()),
        "print it again with the program `names`"
    );
}

/// The list word by word is judge/src/edit.rs's.
#[test]
fn free_names_are_request_e6s() {
    for (n, name) in (1..).zip(&NAMES) {
        assert_eq!(name.free, editable(n), "{}", name.text);
    }
}

#[test]
fn a_row_of_another_kind_does_not_fit() {
    let row = [12, 6, 0, -1, -1, 60, 5, 27, -1];
    assert!(fits(&row));
    for (at, other) in [(1, 0), (2, 1), (3, 0), (4, 0), (6, 4), (7, 32), (8, 0)] {
        let mut changed = row;
        changed[at] = other;
        assert!(!fits(&changed), "number {at}");
    }
}

/// Request E4's names have a band, a group or a segment, and no other does.
#[test]
fn parts_are_request_e4s() {
    let of = |part: fn(Part) -> bool| -> Vec<&str> {
        let names = NAMES.iter().filter(|name| part(name.part));
        names.map(|name| name.text).collect()
    };
    assert_eq!(of(|p| p == Part::Band), ["cplcoexp", "cplcomant"]);
    let groups = of(|p| matches!(p, Part::Group(_)));
    assert_eq!(groups, ["cplexps", "exps[ch]", "lfeexps"]);
    let segments = of(|p| p == Part::Segment);
    let of_coupling = ["cpldeltoffst", "cpldeltlen", "cpldeltba"];
    let of_channels = ["deltoffst", "deltlen", "deltba"];
    assert_eq!(segments, [of_coupling, of_channels].concat());
    let parted: Vec<&str> = PARTED.iter().map(|(name, ..)| *name).collect();
    assert_eq!(of(|p| p != Part::None), parted);
}

#[test]
fn a_part_too_many_does_not_fit() {
    for (name, most) in [("cplcoexp", 18), ("exps[ch]", 84), ("deltba", 8)] {
        let width = match name {
            "cplcoexp" => 4,
            "exps[ch]" => 7,
            _ => 3,
        };
        let mut row = [number(name), 0, -1, 0, 0, 500, width, 0, 0];
        for (part, allowed) in [(0, true), (most - 1, true), (most, false), (NO_PART, false)] {
            row[row_at::PART] = part;
            assert_eq!(fits(&row), allowed, "{name} {part}");
        }
    }
}
