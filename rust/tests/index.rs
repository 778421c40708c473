//! An index: calls of the judge's generator, captures that grow, and what an index says of itself.

mod files;

use ferrysprig::index::{index_into, most_frames, Entry, Index, Refusal};
use ferrysprig::{parse_at, Role};
use judge::index::cases::{Case, Indexes};

/// Calls of the judge's generator: the answer, the entries and the rows are the judge's. (compare/index holds all of them against it, by
/// numbers.)
#[test]
fn the_judges_answers() {
    let mut calls = 0;
    let mut compare = |case: &Case<'_>| {
        let mut runs = case.before.clone();
        let told = index_into(case.capture, &mut runs.room, &mut runs.index, case.entries);
        let (refusal, entries) = match told {
            Ok(entries) => (0, entries),
            Err(refusal) => (refusal.number().into(), case.entries),
        };
        assert_eq!([refusal, entries], case.answer);
        assert_eq!(runs, *case.after);
        calls += 1;
    };
    Indexes::new(3, &mut compare).run_mixed(12);
    assert!(calls > 1_000, "{calls} calls");
}

/// What the entries of an index tell is what parsing tells.
fn as_parsed(capture: &[u8], index: &Index) {
    let mut end = 0;
    for entry in index.entries() {
        let frame = parse_at(capture, entry.place).unwrap();
        assert!(end <= entry.place);
        end = entry.range().end;
        assert_eq!(entry.length, frame.summary.bytes);
        assert_eq!(entry.acmod, frame.summary.acmod);
        let level = |programme| frame.value(Role::Dialnorm(programme), -1);
        assert_eq!(Some(entry.dialnorm.into()), level(0));
        assert_eq!(entry.dialnorm2.map(u32::from), level(1));
    }
    assert_eq!(index.end(), end);
    assert!(index.len() <= most_frames(capture.len()));
}

/// The encoder's streams with bytes changed, in steps of any size.
#[test]
fn extended_as_bytes_come() {
    let mut random = files::random();
    let mut frames = 0;
    for (name, mut capture) in files::frames() {
        for _ in 0..2 {
            let at = random(capture.len());
            capture[at] ^= 1 << random(8);
        }
        let mut index = Index::new();
        let (mut end, mut came) = (0, 0);
        while end < capture.len() {
            end = capture.len().min(end + random(1500));
            came += index.extend(&capture[..end]).unwrap();
            assert_eq!(came, index.len(), "{name}");
        }
        assert_eq!(index, Index::of(&capture), "{name}");
        as_parsed(&capture, &index);
        frames += index.len();
    }
    assert!(frames > 100, "{frames} frames");
}

#[test]
fn two_programmes() {
    let capture = std::fs::read(files::path("interface/two-programmes.ac3")).unwrap();
    let index = Index::of(&capture);
    as_parsed(&capture, &index);
    let entry = index.get(0).unwrap();
    assert_eq!((entry.acmod, entry.dialnorm2.is_some()), (0, true));
}

#[test]
fn captures_without_frames() {
    for capture in [&[][..], &[0x0B], &[0x0B; 900]] {
        let mut index = Index::of(capture);
        assert!(index.is_empty());
        assert_eq!((index.len(), index.last(), index.end()), (0, None, 0));
        assert_eq!(index.extend(capture), Ok(0));
        assert_eq!(index.numbers(), []);
    }
}

/// Another capture is noticed by its last entry, and the index stays.
#[test]
fn another_capture() {
    let stream = files::frame("header-mix-levels.ac3");
    let index = Index::of(&stream);
    let mut edited = stream.clone();
    // The last frame's dialnorm: bits 56 to 60 of it (acmod 7).
    let last = index.last().unwrap().place;
    edited[last + 7] ^= 0x10;
    for other in [&edited[..], &stream[1..], &stream[..stream.len() - 1], &[]] {
        let mut kept = index.clone();
        assert_eq!(kept.extend(other), Err(Refusal::OtherEntry));
        assert_eq!(kept, index);
    }
    // Only the last entry is looked at.
    let mut first = stream.clone();
    first[7] ^= 0x10;
    assert_eq!(index.clone().extend(&first), Ok(0));
    assert_ne!(index, Index::of(&first));
}

#[test]
fn numbers_that_are_no_index() {
    let right = [0, 128, 0, 31, 31, 128, 3840, 7, 0, 0];
    let read = |numbers: &[usize]| Index::from_numbers(numbers.to_vec());
    let index = read(&right).unwrap();
    assert_eq!(index.numbers(), right);
    let entries: Vec<Entry> = index.entries().collect();
    assert_eq!(entries[0].dialnorm2, Some(31));
    assert_eq!(
        (entries[1].range(), entries[1].dialnorm2),
        (128..3968, None)
    );
    assert_eq!(read(&[]), Some(Index::new()));
    for (at, number) in [
        (0, 1),          // the next one begins within it
        (1, 127),        // too short
        (1, 3841),       // too long
        (2, 8),          // no such mode
        (2, 1),          // one programme, two levels
        (3, 32),         // no such level
        (4, 32),         // nor of the second
        (5, 127),        // begins within the one before
        (5, usize::MAX), // ends nowhere
        (7, 256 + 7),    // no such mode
        (9, 1),          // one programme, two levels
    ] {
        let mut wrong = right;
        wrong[at] = number;
        assert_eq!(read(&wrong), None, "number {at} is {number}");
    }
    for length in [1, 4, 6, 9] {
        assert_eq!(read(&right[..length]), None, "{length} numbers");
    }
}

#[test]
fn refusals_have_their_texts() {
    let texts = [Refusal::OtherEntry, Refusal::NoRow, Refusal::NoRoom].map(|r| r.to_string());
    assert_eq!(
        texts,
        [
            "refusal 56: parsing at the last entry's place does not give that entry",
            "refusal 37: the rows do not suffice for a place of the capture",
            "refusal 55: the index has no room for a frame",
        ]
    );
}
