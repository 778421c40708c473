//! Salvage: captures of the judge's generator, refusals, streams and files.

mod files;

use ferrysprig::salvage::{
    most_entries, salvage, salvage_file, salvage_into, salvage_stream, Entry, Refusal, Trouble,
};
use ferrysprig::{parse_at, LEAST_BYTES, MOST_ROWS, ROW_NUMBERS};
use judge::salvage::again::Runs;
use judge::salvage::cases::{Case, Salvages};
use std::io::{self, Read, Write};
use std::path::PathBuf;

fn frame(place: usize, length: usize) -> Entry {
    Entry::Frame { place, length }
}

fn gap(place: usize, length: usize) -> Entry {
    Entry::Gap { place, length }
}

/// The numbers of a list as entries: 0 is a frame, 1 a gap.
fn entries(list: &[usize]) -> Vec<Entry> {
    let entry = |e: &[usize]| match e[0] {
        0 => frame(e[1], e[2]),
        1 => gap(e[1], e[2]),
        other => panic!("kind {other}"),
    };
    list.chunks(3).map(entry).collect()
}

/// Calls of the judge's generator: the entries, the frames and the refusal are the judge's. Where the judge had room for all, so has
/// `salvage`. (compare/salvage holds all of them against it, by numbers.)
#[test]
fn the_judges_answers() {
    let (mut calls, mut whole) = (0, 0);
    let mut compare = |case: &Case<'_>| {
        let [refusal, listed, written] = case.answer;
        let list = entries(&case.runs.list[..3 * listed]);
        let frames = &case.runs.out[..written];
        let Runs {
            mut room,
            list: mut lent,
            mut out,
        } = Runs::fresh(case.runs.lent());
        let told = salvage_into(case.capture, &mut room, &mut lent, &mut out);
        let (number, left) = match &told {
            Ok(left) => (0, left),
            Err(stopped) => (stopped.refusal.number(), &stopped.left),
        };
        assert_eq!(usize::from(number), refusal);
        assert_eq!(left.entries().len(), listed);
        assert_eq!(left.entries().collect::<Vec<_>>(), list);
        assert_eq!(left.frames, frames);
        let end = list.last().map_or(0, |entry| entry.range().end);
        assert_eq!(left.end(), end);
        calls += 1;
        if refusal == 0 {
            whole += 1;
            let salvaged = salvage(case.capture);
            assert_eq!(salvaged.entries, list);
            assert_eq!(salvaged.frames, frames);
            assert!(list.len() <= most_entries(case.capture.len()));
        }
    };
    Salvages::new(3, &mut compare).run_mixed(20);
    assert!(calls > 1_000 && whole > 100, "{calls} calls, {whole}");
}

/// What is said of every list, of the encoder's streams with bytes changed.
#[test]
fn each_byte_is_in_one_entry() {
    let mut random = files::random();
    for (name, mut stream) in files::frames() {
        for _ in 0..3 {
            let at = random(stream.len());
            stream[at] ^= 1 << random(8);
        }
        let salvaged = salvage(&stream);
        let (mut end, mut frames, mut after_gap) = (0, Vec::new(), false);
        for entry in &salvaged.entries {
            assert_eq!(entry.range().start, end, "{name}");
            end = entry.range().end;
            assert!(!(after_gap && entry.is_gap()), "{name}");
            after_gap = entry.is_gap();
            if !entry.is_gap() {
                let parsed = parse_at(&stream, entry.range().start).unwrap();
                assert_eq!(parsed.summary.bytes, entry.range().len(), "{name}");
                frames.extend_from_slice(&stream[entry.range()]);
            }
        }
        assert_eq!(end, stream.len(), "{name}");
        assert_eq!(frames, salvaged.frames, "{name}");
        // What was salvaged has no gap.
        let again = salvage(&frames);
        assert_eq!(again.frames, frames, "{name}");
        assert!(!again.entries.iter().any(|entry| entry.is_gap()), "{name}");
    }
}

#[test]
fn refusals_and_what_they_leave() {
    let stream = files::frame("rate-192-2_0-tones.ac3");
    let capture = [&stream[..], &[7], &stream].concat();
    let rows = parse_at(&stream, 0).unwrap().fields.len();
    let all = [
        frame(0, 768),
        frame(768, 768),
        gap(1536, 1),
        frame(1537, 768),
        frame(2305, 768),
    ];
    let stopped = |rows: usize, list: usize, out: usize, refusal: Refusal, left: usize| {
        let (mut rows, mut list, mut out) = (vec![0; rows], vec![0; list], vec![0; out]);
        let stopped = salvage_into(&capture, &mut rows, &mut list, &mut out).unwrap_err();
        assert_eq!(stopped.refusal, refusal);
        let text = format!("refusal {}: {}", refusal.number(), refusal.meaning());
        assert_eq!(stopped.to_string(), text);
        let entries: Vec<Entry> = stopped.left.entries().collect();
        assert_eq!(entries, all[..left]);
        let written = entries.iter().filter(|e| !e.is_gap()).count() * 768;
        assert_eq!(stopped.left.frames.len(), written);
    };
    let enough = MOST_ROWS * ROW_NUMBERS;
    stopped(rows * ROW_NUMBERS - 1, 15, 3072, Refusal::NoRow, 0);
    stopped(enough, 0, 3072, Refusal::NoEntry, 0);
    stopped(enough, 8, 3072, Refusal::NoEntry, 2);
    stopped(enough, 9, 3072, Refusal::NoEntry, 3);
    stopped(enough, 15, 767, Refusal::NoOutput, 0);
    stopped(enough, 15, 1536, Refusal::NoOutput, 3);
    assert_eq!(salvage(&capture).entries, all);
    let numbers = [Refusal::NoOutput, Refusal::NoEntry, Refusal::NoRow].map(Refusal::number);
    assert_eq!(numbers, [35, 36, 37]);
}

#[test]
fn entries_that_always_suffice() {
    for (bytes, most) in [(0, 1), (127, 1), (128, 3), (255, 3), (256, 5)] {
        assert_eq!(most_entries(bytes), most);
    }
    // As many as there can be: frames of the least length, a byte before and after each.
    let least = judge::craft::small(&|_| None);
    assert_eq!(least.len(), LEAST_BYTES);
    let capture = [&[1], &[&least[..], &[1]].concat().repeat(200)[..]].concat();
    let listed = salvage(&capture).entries.len();
    assert_eq!(listed, 401);
    assert!(listed <= most_entries(capture.len()));
}

/// Gives its bytes one at a time, and now and then none, to be asked again.
struct Drop<'a>(&'a [u8], usize);

impl Read for Drop<'_> {
    fn read(&mut self, buffer: &mut [u8]) -> io::Result<usize> {
        self.1 += 1;
        match self.1 % 5 {
            0 => Err(io::ErrorKind::Interrupted.into()),
            _ => self.0.read(&mut buffer[..1]),
        }
    }
}

struct Broken;

impl Read for Broken {
    fn read(&mut self, _: &mut [u8]) -> io::Result<usize> {
        Err(io::Error::new(io::ErrorKind::Other, "the disk is gone"))
    }
}

impl Write for Broken {
    fn write(&mut self, _: &[u8]) -> io::Result<usize> {
        Err(io::Error::new(io::ErrorKind::Other, "the disk is full"))
    }

    fn flush(&mut self) -> io::Result<()> {
        Ok(())
    }
}

#[test]
fn streams() {
    let stream = files::frame("rate-192-2_0-tones.ac3");
    let capture = [&[7; 3], &stream[..], &[7; 9]].concat();
    let whole = salvage(&capture);
    let (mut frames, mut entries) = (Vec::new(), Vec::new());
    salvage_stream(Drop(&capture, 0), &mut frames, |e| entries.push(e)).unwrap();
    assert_eq!((entries, frames), (whole.entries, whole.frames));
    salvage_stream(io::empty(), Broken, |entry| panic!("{entry:?}")).unwrap();

    let unread = salvage_stream(capture.chain(Broken), io::sink(), |_| ()).unwrap_err();
    assert!(matches!(unread, Trouble::Read(_)));
    let text = "cannot read the capture: the disk is gone";
    assert_eq!(unread.to_string(), text);
    let unwritten = salvage_stream(&stream[..], Broken, |_| ()).unwrap_err();
    assert!(matches!(unwritten, Trouble::Write(_)));
    let text = "cannot write the frames: the disk is full";
    assert_eq!(unwritten.to_string(), text);
}

/// A folder of the test's own, gone with it.
struct Folder(PathBuf);

impl Folder {
    fn new() -> Folder {
        let name = format!("ferrysprig-salvage-test-{}", std::process::id());
        let path = std::env::temp_dir().join(name);
        std::fs::create_dir_all(&path).unwrap();
        Folder(path)
    }
}

impl std::ops::Drop for Folder {
    fn drop(&mut self) {
        let _ = std::fs::remove_dir_all(&self.0);
    }
}

#[test]
fn files_of_any_length() {
    let folder = Folder::new();
    let [damaged, clean] = ["damaged.ac3", "clean.ac3"].map(|name| folder.0.join(name));
    // More than the pieces that it is read in.
    let stream = files::frame("rate-192-2_0-tones.ac3");
    let part = [&stream.repeat(300)[..], &[7; 5]].concat();
    let mut capture = part.repeat(5);
    capture.drain(700_000..700_900);
    std::fs::write(&damaged, &capture).unwrap();
    let entries = salvage_file(&damaged, &clean).unwrap();
    let whole = salvage(&capture);
    assert_eq!(entries, whole.entries);
    assert_eq!(std::fs::read(&clean).unwrap(), whole.frames);
    assert_eq!(entries.iter().filter(|entry| entry.is_gap()).count(), 6);

    let trouble = |input: &str, output: &str| {
        let [input, output] = [input, output].map(|name| folder.0.join(name));
        salvage_file(input, output).unwrap_err()
    };
    // No file is written over, the capture itself least of all.
    for output in ["damaged.ac3", "clean.ac3", "."] {
        assert!(matches!(trouble("damaged.ac3", output), Trouble::Write(_)));
    }
    for input in ["missing.ac3", "."] {
        assert!(matches!(trouble(input, "made.ac3"), Trouble::Read(_)));
    }
    assert!(!folder.0.join("made.ac3").exists());
    assert_eq!(std::fs::read(&damaged).unwrap(), capture);
    assert_eq!(std::fs::read(&clean).unwrap(), whole.frames);
}
