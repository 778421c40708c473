//! The stored lists: the judge, with its checks of agreement, gives every stored answer; and the
//! lists reach what they are to reach.

use judge::agree::{Judge, Room};
use judge::cases::{input, Case, LONGEST};
use judge::goals::{self, Counts, Goal, NAME, PLACE, REFUSAL, SEVEN, SITE, SIX};
use judge::hex;
use judge::layout::ROW;
use judge::list::{said, Listed};
use judge::replay;
use std::fs;
use std::path::Path;

fn stored(name: &str) -> Vec<u8> {
    fs::read(
        Path::new(env!("CARGO_MANIFEST_DIR"))
            .join("vectors")
            .join(name),
    )
    .expect(name)
}

fn of_kinds(kinds: &[&str]) -> Vec<Goal> {
    goals::required()
        .into_iter()
        .filter(|g| kinds.contains(&g.0))
        .collect()
}

#[test]
fn text_list() {
    let list = String::from_utf8(stored("list.txt")).expect("text");
    let (mut judge, mut counts) = (Judge::default(), Counts::default());
    let mut capture = Vec::new();
    for line in list.lines() {
        if let Some(digits) = line.strip_prefix("frame ") {
            capture = hex::bytes(digits);
        } else if line.starts_with("case ") {
            let listed = Listed::read(line);
            assert_eq!(listed.line(), line);
            let input = input(&capture, listed.edit, listed.keep);
            let call = judge.call(&input, listed.place, Room::Numbers(listed.numbers));
            let case = Case {
                capture: &capture,
                edit: listed.edit,
                keep: listed.keep,
                place: listed.place,
                input: &input,
                call: &call,
                corner: None,
            };
            assert_eq!(said(&case), listed.said, "{line}");
            counts.add(&case);
        } else {
            assert!(line.starts_with('#'), "{line}");
        }
    }
    assert_eq!(counts.missed(&goals::required()), []);
}

#[test]
fn binary_list() {
    let list = stored("replay.bin");
    assert!(list.len() <= 600_000);
    let (mut judge, mut counts) = (Judge::default(), Counts::default());
    for (i, replayed) in replay::read(&list).into_iter().enumerate() {
        assert!(replayed.capture.len() <= LONGEST);
        let call = judge.call(replayed.capture, replayed.place, replayed.room);
        let case = Case {
            capture: replayed.capture,
            edit: None,
            keep: replayed.capture.len(),
            place: replayed.place,
            input: replayed.capture,
            call: &call,
            corner: None,
        };
        assert_eq!(said(&case), replayed.said, "case {i}");
        counts.add(&case);
    }
    assert_eq!(
        counts.missed(&of_kinds(&[NAME, REFUSAL, SITE, SIX, SEVEN, PLACE])),
        []
    );
    assert_eq!(counts.missed(&goals::required()), []);
}

/// An encoder's frames stand in the binary list as they are.
#[test]
fn binary_list_has_an_encoders_frames() {
    let list = stored("replay.bin");
    let captures: Vec<&[u8]> = replay::read(&list)
        .iter()
        .map(|case| case.capture)
        .collect();
    let kept = judge::frames::kept();
    let found = kept
        .iter()
        .filter(|(name, _)| !name.starts_with("speed"))
        .filter(|(_, stream)| captures.iter().any(|capture| stream.starts_with(capture)))
        .count();
    assert!(found >= 8, "{found} files");
}

/// Every corner case stands in the binary list, with the rows that it asks for.
#[test]
fn binary_list_has_every_corner_case() {
    let list = stored("replay.bin");
    let cases = replay::read(&list);
    for corner in judge::corners::all() {
        let found = cases.iter().any(|case| {
            let Room::Numbers(numbers) = case.room else {
                return false;
            };
            let rows = corner
                .rows
                .is_none_or(|rows| numbers == ROW * rows + corner.left_over);
            case.capture == corner.capture && case.place == corner.place && rows
        });
        assert!(found, "{}", corner.name);
    }
}
