//! The corner cases: each has the number that docs/FORMAT.md gives it, corners.txt is what the program
//! prints, and every case that docs/DIFFERENCES.md shows is one of them, input and answer.

use judge::agree::Judge;
use judge::blocks::{allocate_block, AllocState, ExpSet, SlotAlloc};
use judge::corners::{all, text};
use judge::layout::{row_at, NO_PART, ROW};
use judge::names::number;
use std::collections::BTreeSet;
use std::fs;
use std::path::Path;

fn file(path: &str) -> String {
    let path = Path::new(env!("CARGO_MANIFEST_DIR")).join(path);
    fs::read_to_string(&path).unwrap_or_else(|e| panic!("{}: {e}", path.display()))
}

#[test]
fn each_has_its_number() {
    let mut judge = Judge::default();
    let mut names = BTreeSet::new();
    for corner in all() {
        let call = judge.call(&corner.capture, corner.place, corner.room());
        assert_eq!(call.answer.number(), corner.number, "{}", corner.name);
        assert_eq!(call.answer.unfit(), corner.unfit, "{}", corner.name);
        assert!(names.insert(corner.name), "{} stands twice", corner.name);
    }
}

#[test]
fn the_file_is_what_is_printed() {
    assert_eq!(file("corners.txt"), text());
}

/// Blocks fenced as `case` hold one or more entries.
#[test]
fn differences_show_cases_of_the_list() {
    let document = file("../docs/DIFFERENCES.md");
    let mut judge = Judge::default();
    let entries: Vec<String> = all()
        .iter()
        .map(|corner| corner.entry(&mut judge))
        .collect();
    let mut shown = 0;
    for block in document.split("```case\n").skip(1) {
        let block = block.split("```").next().unwrap();
        let lines: Vec<&str> = block.lines().collect();
        assert!(
            lines.len().is_multiple_of(2) && !lines.is_empty(),
            "{block}"
        );
        for entry in lines.chunks(2) {
            let entry = format!("{}\n{}\n", entry[0], entry[1]);
            assert!(entries.contains(&entry), "not in corners.txt:\n{entry}");
            shown += 1;
        }
    }
    assert!(shown >= 40, "{shown} cases shown");
}

/// Cases that it only names are in the list too, with the answer that it tells.
#[test]
fn differences_name_cases_of_the_list() {
    let document = file("../docs/DIFFERENCES.md");
    let mut judge = Judge::default();
    let corners = all();
    let (mut named, mut told) = (0, 0);
    for mention in document.replace("Case `", "case `").split("case `").skip(1) {
        let (name, rest) = mention.split_once('`').expect("a name");
        let corner = corners.iter().find(|c| c.name == name).expect(name);
        named += 1;
        if let Some(answer) = rest.strip_prefix(" (`") {
            let answer = answer.split('`').next().unwrap();
            let entry = corner.entry(&mut judge);
            let first = entry.lines().next().unwrap();
            assert!(
                first.ends_with(&format!(": {answer}")),
                "{first}, told {answer}"
            );
            told += 1;
        }
    }
    assert!(named >= 10 && told >= 5, "{named} named, {told} told");
}

/// Of the cases at the frame's end the published parser, with its tail, accepts one.
#[test]
fn the_published_tail_refuses() {
    let published = |name: &str| {
        let corner = all().into_iter().find(|c| c.name == name).expect(name);
        judge::ac3::parse(&corner.capture)
            .map(|f| f.audio_end)
            .map_err(|e| e.to_string())
    };
    for (name, text) in [
        (
            "audio-to-the-last-bit",
            "invalid stream: audio data ends at bit 1024",
        ),
        (
            "audio-17-before-the-end",
            "invalid stream: audio data ends at bit 1007",
        ),
        (
            "auxdatal-too-long",
            "invalid stream: auxdatal 16383 exceeds",
        ),
    ] {
        let refused = published(name).unwrap_err();
        assert!(refused.starts_with(text), "{name}: {refused}");
    }
    assert_eq!(published("audio-18-before-the-end"), Ok(1006));
}

#[test]
fn coordinates_sent_is_of_every_coupled_channel_in_every_block() {
    let (mut judge, corners) = (Judge::default(), all());
    for (name, sent, why) in [
        ("plain", true, "no coupling at all"),
        ("coordinates-never-sent", false, "no cplcoe is 1"),
        ("coordinates-of-a-late-channel", false, "it joins with 0"),
        ("coordinates-of-a-late-channel-sent", true, "with 1"),
        ("coordinates-a-block-late", false, "1 comes too late"),
        ("coordinates-of-a-channel-that-comes-back", true, "it had 1"),
        ("coordinates-through-pause", true, "all had 1"),
        ("coordinates-of-another-banding", true, "all had 1"),
        ("coupling-two-programmes", false, "no cplcoe is 1"),
        ("coordinates-two-programmes", true, "both have 1"),
        ("coordinates-of-one-programme", false, "one has 0"),
    ] {
        let corner = corners.iter().find(|c| c.name == name).expect(name);
        let answer = judge.ample(&corner.capture, 0).answer;
        let summary = answer.verdict.expect("accepted");
        assert_eq!(summary.coordinates_sent, sent, "{name}: {why}");
    }
}

#[test]
fn as_many_parts_as_there_can_be_and_as_few() {
    let corners = all();
    let rows = |case: &str| {
        let corner = corners.iter().find(|c| c.name == case).expect(case);
        Judge::default().ample(&corner.capture, 0).rows
    };
    let [eighteen, one] = ["bands-eighteen", "bands-one"].map(rows);
    let [to_the_end, eight] = ["groups-to-the-end", "segments-eight"].map(rows);
    // Part and value of the rows of a name and index.
    let parts = |rows: &[i32], name: &str, index: i32| -> Vec<(i32, i32)> {
        rows.chunks(ROW)
            .filter(|r| (r[row_at::NAME], r[row_at::INDEX]) == (number(name), index))
            .map(|r| (r[row_at::PART], r[row_at::VALUE]))
            .collect()
    };
    let bands: Vec<(i32, i32)> = (0..18).map(|band| (band, band % 16)).collect();
    for name in ["cplcoexp", "cplcomant"] {
        for channel in 0..2 {
            assert_eq!(parts(&eighteen, name, channel), bands);
            assert_eq!(parts(&one, name, channel), [(0, 0)]);
        }
    }
    for (name, index, groups) in [
        ("cplexps", 0, 72),
        ("exps[ch]", 0, 12),
        ("exps[ch]", 1, 12),
        ("exps[ch]", 2, 84),
        ("lfeexps", 0, 2),
    ] {
        let groups: Vec<(i32, i32)> = (0..groups).map(|group| (group, 62)).collect();
        assert_eq!(parts(&to_the_end, name, index), groups, "{name}");
    }
    for (name, index) in [("cplabsexp", 0), ("exps[ch][0]", 2), ("lfeexps[0]", 0)] {
        assert_eq!(parts(&to_the_end, name, index), [(NO_PART, 0)]);
    }
    let segments: Vec<(i32, i32)> = (0..8).map(|segment| (segment, segment)).collect();
    for name in ["cpldeltoffst", "cpldeltlen", "cpldeltba"] {
        assert_eq!(parts(&eight, name, 5), segments, "{name}");
    }
    for name in ["deltoffst", "deltlen", "deltba"] {
        for channel in 0..5 {
            assert_eq!(parts(&eight, name, channel), segments, "{name}");
        }
    }
}

/// Of nine numbers to a row: 9 n + 8 hold n rows, and the eight left over are not touched (`Judge::call` sees to it).
#[test]
fn eight_numbers_left_over_are_no_row() {
    let corner = all()
        .into_iter()
        .find(|c| c.name == "one-number-too-few")
        .expect("listed");
    let call = Judge::default().call(&corner.capture, 0, corner.room());
    let rows = call.ample.answer.rows;
    assert_eq!(call.room.len(), 9 * rows - 1);
    assert_eq!(call.room.len() % 9, 8);
    assert_eq!((call.answer.number(), call.answer.rows), (7, rows - 1));
}

/// Pointers of the case's blocks 0 and 1, whose mantissas are all ones: 17 groups of pointers 1, then 8 groups
/// of pointers 2, 21 pointers 3 and 14 groups of pointers 4.
#[test]
fn codes_too_large_are_of_all_three_sorts() {
    let corner = all()
        .into_iter()
        .find(|c| c.name == "mantissa-codes-too-large");
    let capture = corner.expect("listed").capture;
    let rows = Judge::default().ample(&capture, 0).rows;
    let mantissas = judge::names::number("mantissas");
    let of_block = |block: i32| {
        let row = rows
            .chunks(ROW)
            .find(|r| (r[row_at::NAME], r[row_at::BLOCK]) == (mantissas, block));
        let row = row.expect("a row in every block");
        let (at, width) = (row[row_at::POS] as usize, row[row_at::WIDTH] as usize);
        assert!((at..at + width).all(|bit| judge::bits::get(&capture, bit, 1) == 1));
        width
    };
    assert_eq!(
        [0, 1, 2].map(of_block),
        [17 * 5, 8 * 7 + 21 * 3 + 14 * 7, 0]
    );
    let state = |csnroffst: u8| AllocState {
        bai: Some([0; 5]),
        csnroffst: Some(csnroffst),
        fgaincod: [7; 7],
        ..AllocState::default()
    };
    let exps = ExpSet {
        exp: vec![0; 256],
        start: 0,
        end: 73,
    };
    let pointers = |csnroffst: u8| -> BTreeSet<u8> {
        let slot = SlotAlloc {
            slot: 0,
            exps: &exps,
            start: 0,
            end: 73,
            high_efficiency: false,
        };
        let bap = allocate_block(&state(csnroffst), 0, &[slot]).expect("allocated");
        bap[0][..73].iter().copied().collect()
    };
    assert_eq!(pointers(1), BTreeSet::from([0, 1]));
    assert_eq!(pointers(5), BTreeSet::from([2, 3, 4]));
}
