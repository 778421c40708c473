//! The command `ferrysprig`, as a program: its listing beside the judge's, streams, outputs that are whole or not there, and input, arguments
//! and readers of any kind. (interface/run holds what it prints to interface/said.)

mod files;

use ferrysprig::index::Index;
use ferrysprig::level::correct_level;
use ferrysprig::{burst, parse, parse_at, salvage, slot, MOST_ROWS, SLOTS};
use files::{frame, frames, random};
use judge::cut::answer;
use judge::layout::ROW;
use judge::listing;
use std::ffi::{OsStr, OsString};
use std::fs;
use std::io::Write;
use std::os::unix::ffi::OsStringExt;
use std::os::unix::fs::PermissionsExt;
use std::path::{Path, PathBuf};
use std::process::{Command, Output, Stdio};

/// The command, by what runs programs of this processor: an emulator, where it is another one than the machine's.
fn command() -> Command {
    let program = env!("CARGO_BIN_EXE_ferrysprig");
    let runner = std::env::var("CARGO_TARGET_X86_64_UNKNOWN_LINUX_GNU_RUNNER").unwrap_or_default();
    let mut words = runner.split_whitespace().chain([program]);
    let mut command = Command::new(words.next().unwrap());
    command.args(words);
    command
}

fn run<T: AsRef<OsStr>>(arguments: &[T]) -> Output {
    let mut command = command();
    command
        .args(arguments)
        .stdin(Stdio::null())
        .output()
        .unwrap()
}

/// The same with bytes at standard input. (It may end without having read them.)
fn run_on(input: &[u8], arguments: &[&str]) -> Output {
    let mut command = command();
    let piped = command.args(arguments).stdin(Stdio::piped());
    let mut child = piped
        .stdout(Stdio::piped())
        .stderr(Stdio::piped())
        .spawn()
        .unwrap();
    let mut pipe = child.stdin.take().unwrap();
    let bytes = input.to_vec();
    let feeder = std::thread::spawn(move || drop(pipe.write_all(&bytes)));
    let output = child.wait_with_output().unwrap();
    feeder.join().unwrap();
    output
}

fn status(output: &Output) -> i32 {
    output.status.code().unwrap()
}

fn out(output: &Output) -> String {
    String::from_utf8(output.stdout.clone()).unwrap()
}

fn err(output: &Output) -> String {
    String::from_utf8_lossy(&output.stderr).into_owned()
}

/// A folder of its own for a test.
struct Folder(PathBuf);

impl Folder {
    fn new(name: &str) -> Folder {
        let path = std::env::temp_dir().join(format!("ferrysprig-{name}-{}", std::process::id()));
        fs::create_dir_all(&path).unwrap();
        Folder(path)
    }

    /// The path of a name in it.
    fn at(&self, name: &str) -> String {
        self.0.join(name).to_str().unwrap().into()
    }

    fn with(&self, name: &str, bytes: &[u8]) -> String {
        fs::write(self.at(name), bytes).unwrap();
        self.at(name)
    }

    /// The names of its files.
    fn names(&self) -> Vec<String> {
        let files = fs::read_dir(&self.0).unwrap();
        let mut names: Vec<String> = files
            .map(|file| file.unwrap().file_name().into_string().unwrap())
            .collect();
        names.sort();
        names
    }
}

impl Drop for Folder {
    fn drop(&mut self) {
        let _ = fs::remove_dir_all(&self.0);
    }
}

fn path_of(name: &str) -> String {
    let path = files::path("judge/frames").join(name);
    path.to_str().unwrap().into()
}

/// The judge's listing of the frame at a place, and the frame's bytes if it is accepted.
fn judged(bytes: &[u8], place: usize, rows: usize) -> (String, Option<usize>) {
    let mut room = vec![0; rows * ROW];
    let answer = answer(bytes, place, &mut room);
    let length = answer.verdict.as_ref().ok().map(|summary| summary.bytes);
    (listing::listing(&answer, &room), length)
}

/// The encoder's frames: without an option the listing is the listing program's, a refusal is status 1 and is said.
#[test]
fn the_listing_is_the_judges() {
    let mut refused = 0;
    for (name, bytes) in frames() {
        let (listing, length) = judged(&bytes, 0, listing::ROWS);
        let said = run(&["list", &path_of(&name)]);
        assert_eq!(out(&said), listing, "{name}");
        match length {
            Some(_) => assert_eq!((status(&said), err(&said)), (0, String::new()), "{name}"),
            None => {
                let last = listing.lines().last().unwrap();
                let words: Vec<&str> = last.split(' ').collect();
                let why = format!("at byte 0: refusal {} at bit {}: ", words[1], words[3]);
                assert_eq!(status(&said), 1, "{name}");
                assert!(err(&said).contains(&why), "{name}: {}", err(&said));
                refused += 1;
            }
        }
    }
    assert!(refused >= 3, "{refused} refused");
}

/// A stream of several frames, from a file and from standard input: their listings one after the other.
#[test]
fn all_frames_are_listed() {
    let bytes = [frame("speed-a.ac3"), frame("speed-c.ac3")].concat();
    let (mut listings, mut place) = (String::new(), 0);
    while place < bytes.len() {
        let (listing, length) = judged(&bytes, place, MOST_ROWS);
        listings += &listing;
        place += length.unwrap();
    }
    let room = MOST_ROWS.to_string();
    let said = run_on(&bytes, &["list", "--all", "--room", &room, "-"]);
    assert_eq!(status(&said), 0);
    assert!(out(&said) == listings);

    // From a byte on; and a frame that is cut ends the listing.
    let cut = &bytes[..bytes.len() - 1];
    let at = bytes.len() - 3840;
    let said = run_on(
        cut,
        &["list", "--all", "--at", &at.to_string(), "--room=0", "-"],
    );
    assert_eq!(
        (status(&said), out(&said)),
        (1, "refused 7 0 0 0 -1\n".into())
    );
    let said = run_on(cut, &["list", "--all", &format!("--at={at}"), "-"]);
    assert_eq!(out(&said), judged(cut, at, listing::ROWS).0);
    let last = format!("at byte {at}: refusal 4 at bit 40: the input is shorter than the frame");
    assert!(err(&said).contains(&last), "{}", err(&said));
    for end in [cut.len(), bytes.len()] {
        // There is nothing at the end, and no byte behind it.
        let (number, text) = match end == cut.len() {
            true => (1, "refused 1 0 0 0 -1\n"),
            false => (2, ""),
        };
        let said = run_on(cut, &["list", "--at", &end.to_string(), "-"]);
        assert_eq!((status(&said), out(&said)), (number, text.into()));
        let folder = Folder::new(&format!("at-{end}"));
        let file = folder.with("cut.ac3", cut);
        let said = run(&["list", "--at", &end.to_string(), &file]);
        assert_eq!((status(&said), out(&said)), (number, text.into()));
    }
}

/// The table has a line for each field: name, value, and the programme counted from one.
#[test]
fn the_table_has_every_field() {
    let two = fs::read(files::path("interface/two-programmes.ac3")).unwrap();
    let mut programmes = [0; 3];
    for bytes in [two, frame("header-6-both.ac3"), frame("speed-c.ac3")] {
        let parsed = parse(&bytes).unwrap();
        let said = run_on(&bytes, &["list", "--names", "-"]);
        let text = out(&said);
        let lines: Vec<&str> = text.lines().collect();
        assert_eq!(lines.len(), parsed.fields.len() + 3);
        for (field, line) in parsed.fields.iter().zip(&lines[2..]) {
            let cells: Vec<&str> = line.split_whitespace().collect();
            let number = |cell: &str| cell.parse::<i64>().unwrap_or(-1);
            assert_eq!(cells[0], field.pos.to_string());
            assert_eq!(cells[1], field.width.to_string());
            let value = if field.role.is_span() {
                -1
            } else {
                field.value.into()
            };
            assert_eq!(number(cells[2]), value);
            assert_eq!(cells[3], field.name);
            assert_eq!(number(cells[4]), field.block.into());
            assert_eq!(number(cells[5]), field.index.into());
            assert_eq!(number(cells[6]), field.part.map_or(-1, i64::from));
            let role = format!("{:?}", field.role);
            let programme = match role.split(['(', ')']).nth(1) {
                Some(from_zero) => number(from_zero) + 1,
                None => -1,
            };
            assert_eq!(number(cells[7]), programme);
            programmes[programme.max(0) as usize] += 1;
            assert!(cells.len() > 8, "{line}");
        }
    }
    assert!(programmes.iter().all(|count| *count > 10), "{programmes:?}");
}

/// Streams longer than what is held at once: bursts and back, levels, profile, header, salvage.
#[test]
fn long_streams_go_through() {
    let folder = Folder::new("long");
    let once = [
        frame("speed-a.ac3"),
        frame("speed-b.ac3"),
        frame("speed-c.ac3"),
    ]
    .concat();
    let stream = once.repeat(10);
    assert!(stream.len() > 700_000);
    let capture = folder.with("stream.ac3", &stream);
    let (bursts, back) = (folder.at("bursts"), folder.at("back.ac3"));
    assert_eq!(status(&run(&["burst", &capture, &bursts])), 0);
    let (mut place, mut count) = (0, 0);
    let written = fs::read(&bursts).unwrap();
    while place < stream.len() {
        let burst = &written[count * burst::BYTES..][..burst::BYTES];
        assert!(burst == burst::write(&stream, place).unwrap());
        place += parse_at(&stream, place).unwrap().summary.bytes;
        count += 1;
    }
    assert_eq!(written.len(), count * burst::BYTES);
    assert_eq!(status(&run(&["unburst", &bursts, &back])), 0);
    assert!(fs::read(&back).unwrap() == stream);

    for what in ["levels", "header", "profile"] {
        let said = run_on(&stream, &[what, "-"]);
        assert_eq!(status(&said), i32::from(what == "profile"));
        assert_eq!(out(&said).matches("frame at byte ").count(), count);
    }
    let said = out(&run(&["header", "--changes", &capture]));
    assert!(said.matches("frame at byte ").count() < count);

    let damaged = [&stream[5..400_000], &stream[400_100..]].concat();
    let said = run_on(&damaged, &["salvage", "-", &folder.at("left.ac3")]);
    let whole = salvage::salvage(&damaged);
    assert!(fs::read(folder.at("left.ac3")).unwrap() == whole.frames);
    let gaps = whole.entries.iter().filter(|entry| entry.is_gap()).count();
    assert_eq!(
        (status(&said), out(&said).matches("gap at byte").count()),
        (1, gaps)
    );
    let said = run_on(&damaged, &["salvage", "-", "-"]);
    assert!((status(&said), said.stdout) == (1, whole.frames));
}

/// Listings are packed and unpacked again; where one is refused, its byte is told.
#[test]
fn listings_are_packed() {
    let folder = Folder::new("packed");
    let packed = folder.at("packed");
    for name in ["speed-a.ac3", "refused-eac3-2_0.ac3"] {
        let (text, _) = judged(&frame(name), 0, listing::ROWS);
        assert_eq!(status(&run_on(text.as_bytes(), &["pack", "-", &packed])), 0);
        let bytes = fs::read(&packed).unwrap();
        assert_eq!(bytes, ferrysprig::listing::pack(text.as_bytes()).unwrap());
        let said = run(&["unpack", &packed, "-"]);
        assert_eq!((status(&said), out(&said)), (0, text.clone()));

        // A byte too few, one too many, one that is wrong.
        let wrong = text.replacen(" 2935 ", " 02935 ", 1);
        let at = wrong.find(" 02935").unwrap() + 2;
        for (text, refusal, place) in [
            (&text[..text.len() - 1], 43, text.len() - 1),
            (&format!("{text}\n"), 44, text.len()),
            (&wrong, 40, at),
        ] {
            let said = run_on(text.as_bytes(), &["pack", "-", &packed]);
            let told = format!("at byte {place}: refusal {refusal}: ");
            assert!(err(&said).contains(&told), "{}", err(&said));
            assert_eq!(
                (status(&said), fs::read(&packed).unwrap()),
                (1, bytes.clone())
            );
        }
        let said = run_on(&bytes[..bytes.len() - 1], &["unpack", "-", "-"]);
        let told = format!("at byte {}: refusal 43: ", bytes.len() - 1);
        assert!(err(&said).contains(&told), "{}", err(&said));
        assert_eq!((status(&said), said.stdout), (1, vec![]));
    }
}

/// A level is written into every frame, once; what is refused leaves no output.
#[test]
fn levels_are_set() {
    let folder = Folder::new("level");
    let stream = frame("speed-a.ac3").repeat(15);
    assert!(stream.len() > 300_000);
    let (from, to) = (folder.with("in.ac3", &stream), folder.at("out.ac3"));
    let mut corrected = stream.clone();
    let (mut place, mut listed, mut count) = (0, String::new(), 0);
    while place < stream.len() {
        let changes = correct_level(&mut corrected, place, 1, 24).unwrap();
        assert!(!changes.is_empty());
        let changes: Vec<String> = changes.iter().map(|change| change.to_string()).collect();
        listed += &format!("frame at byte {place}: {}\n", changes.join(", "));
        place += parse_at(&stream, place).unwrap().summary.bytes;
        count += 1;
    }
    let said = run(&["set-level", "--frames", "24", &from, &to]);
    let last = format!("{count} of {count} frames changed\n");
    assert_eq!((status(&said), out(&said)), (0, listed + &last));
    assert!(fs::read(&to).unwrap() == corrected);
    let said = run(&["set-level", "--in-place", "24", &to]);
    let last = format!("0 of {count} frames changed\n");
    assert_eq!((status(&said), out(&said)), (0, last));
    assert!(fs::read(&to).unwrap() == corrected);
    let said = run_on(&stream, &["set-level", "24", "-", "-"]);
    assert!((status(&said), said.stdout) == (0, corrected.clone()));

    for (arguments, refusal) in [
        (&["set-level", "0", &from, &to][..], 51),
        (&["set-level", "32", &from, &to], 51),
        (&["set-level", "--programme", "2", "24", &from, &to], 50),
        (&["set-level", "--programme=0", "24", &from, &to], 50),
    ] {
        let said = run(arguments);
        let told = format!("at byte 0: refusal {refusal}: ");
        assert!(err(&said).contains(&told), "{}", err(&said));
        assert_eq!(status(&said), 1);
    }
    assert_eq!(status(&run(&["set-level", "loud", &from, &to])), 2);
    let said = run_on(&stream[..stream.len() - 1], &["set-level", "24", "-", &to]);
    assert_eq!(status(&said), 1);
    assert!(
        err(&said).contains(": refusal 4 at bit 40: "),
        "{}",
        err(&said)
    );
    assert!(fs::read(&to).unwrap() == corrected);
    assert_eq!(folder.names(), ["in.ac3", "out.ac3"]);
}

/// The numbers of an index, as they stand in a file.
fn kept(index: &Index) -> Vec<u8> {
    let numbers = index.numbers().iter();
    numbers.flat_map(|number| number.to_le_bytes()).collect()
}

/// An index that is made or extended piece by piece is that of the whole.
#[test]
fn an_index_is_kept() {
    let folder = Folder::new("index");
    let (one, other) = (frame("speed-a.ac3"), frame("header-production.ac3"));
    // Gaps: of a false header, of more than a piece, and a frame that is cut at the end.
    let gaps = [
        &[0x0B, 0x77, 0, 0, 30][..],
        &vec![0; 1_500_000],
        &one[..1000],
    ];
    let capture = [
        &one.repeat(60),
        gaps[0],
        &other,
        gaps[1],
        &one,
        &other.repeat(3),
        gaps[2],
    ]
    .concat();
    let (path, index) = (folder.at("capture.ac3"), folder.at("index"));
    let whole = Index::of(&capture);
    assert!(whole.len() > 700);
    fs::write(&path, &capture).unwrap();
    let said = run(&["index", "make", "--changes", &path, &index]);
    assert_eq!(status(&said), 0, "{}", err(&said));
    assert!(fs::read(&index).unwrap() == kept(&whole));
    let levels: Vec<u8> = whole.entries().map(|entry| entry.dialnorm).collect();
    let changes = levels.windows(2).filter(|two| two[0] != two[1]).count();
    assert!(changes > 2);
    assert_eq!(out(&said).matches(": dialnorm ").count(), changes);
    let piped = run_on(&capture, &["index", "make", "-", "-"]);
    assert!((status(&piped), piped.stdout) == (0, kept(&whole)));

    // It grows.
    fs::write(&index, []).unwrap();
    let mut before = 0;
    for length in [
        0,
        100,
        5000,
        700_000,
        1_500_000,
        capture.len() - 900,
        capture.len(),
    ] {
        fs::write(&path, &capture[..length]).unwrap();
        let said = run(&["index", "extend", &path, &index]);
        let fresh = Index::of(&capture[..length]);
        let (count, end) = (fresh.len(), fresh.end());
        let frames = if count - before == 1 {
            "frame"
        } else {
            "frames"
        };
        let told = format!(
            "{} {frames} came, {count} in all, to byte {end}\n",
            count - before
        );
        assert_eq!((status(&said), out(&said)), (0, told), "{}", err(&said));
        assert!(fs::read(&index).unwrap() == kept(&fresh), "{length}");
        before = count;
    }
    let shown = out(&run(&["index", "show", &index]));
    assert_eq!(shown.lines().count(), 1 + whole.len());
    let shown = out(&run(&["index", "show", "--changes", &index]));
    assert_eq!(shown.lines().count(), changes);

    // Another capture, one that is shorter, no index, no call.
    let names = folder.names();
    for bytes in [&capture[1..], &capture[..900]] {
        fs::write(&path, bytes).unwrap();
        let said = run(&["index", "extend", &path, &index]);
        let place = whole.last().unwrap().place;
        let told = format!("at byte {place}: refusal 56: ");
        assert!(err(&said).contains(&told), "{}", err(&said));
        assert_eq!(status(&said), 1);
        assert!(fs::read(&index).unwrap() == kept(&whole));
    }
    for wrong in [
        &["index", "show", &path][..],
        &["index", "extend", &path, &path],
        &["index", "make", &path, &path],
        &["index", "make", &path],
        &["index", "show", &path, &index],
        &["index", "list", &path, &index],
        &["index", "extend", &path, &folder.at("missing")],
    ] {
        assert_eq!(status(&run(wrong)), 2, "{wrong:?}");
    }
    assert_eq!(folder.names(), names);
    assert_eq!(fs::read(&path).unwrap(), capture[..900]);
}

/// The bars, and those of the picture, tell the bits of the mantissas by channel and block.
#[test]
fn bits_are_told() {
    let folder = Folder::new("bits");
    let two = fs::read(files::path("interface/two-programmes.ac3")).unwrap();
    let mixed = [frame("speed-a.ac3"), frame("fixed-2_0.ac3")].concat();
    for (bytes, all) in [
        (frame("coupling-03-3_2_lfe-tones.ac3"), false),
        (frame("rate-192-2_0-tones.ac3"), false),
        (frame("speed-b.ac3"), true),
        (two, false),
        (mixed, true),
    ] {
        // The sums of the frames that are shown, and which slots one of them uses.
        let (mut place, mut frames) = (0, 0);
        let (mut sums, mut used) = ([[0; SLOTS]; 6], [false; SLOTS]);
        while place < bytes.len() && (all || frames == 0) {
            let summary = parse_at(&bytes, place).unwrap().summary;
            let channels = [2, 1, 2, 3, 3, 4, 4, 5][usize::from(summary.acmod)];
            used[..channels].fill(true);
            used[slot::COUPLING] |= summary.cpl_blocks > 0;
            used[slot::LFE] |= summary.lfeon;
            for (block, slots) in summary.mantissa_bits.iter().enumerate() {
                for (slot, bits) in slots.iter().enumerate() {
                    sums[block][slot] += bits;
                }
            }
            place += summary.bytes;
            frames += 1;
        }
        let mean = |sum: usize| (sum + frames / 2) / frames;
        let bits: Vec<usize> = (0..SLOTS)
            .filter(|slot| used[*slot])
            .flat_map(|slot| sums.map(|block| mean(block[slot])))
            .collect();
        assert!(bits.iter().sum::<usize>() > 0);

        let file = folder.with("in.ac3", &bytes);
        let mut arguments = vec!["bits", &file];
        arguments.extend(all.then_some("--all"));
        let said = run(&arguments);
        assert_eq!((status(&said), err(&said)), (0, String::new()));
        let text = out(&said);
        let bars = text.lines().filter(|line| line.starts_with("  block "));
        let told = bars.map(|bar| bar.rsplit(' ').next().unwrap().parse().unwrap());
        assert_eq!(told.collect::<Vec<usize>>(), bits);

        let picture = folder.at("bits.svg");
        arguments.extend(["--svg", &picture]);
        let said = run(&arguments);
        assert_eq!((status(&said), out(&said)), (0, String::new()));
        let svg = fs::read_to_string(&picture).unwrap();
        let titles = svg.split("<title>").skip(1);
        let number = |title: &str| {
            let (_, bits) = title.split_once(": ").unwrap();
            bits.split(' ').next().unwrap().parse().unwrap()
        };
        let mut told: Vec<usize> = titles.map(number).collect();
        let mut expected = bits.clone();
        told.sort_unstable();
        expected.sort_unstable();
        assert_eq!(told, expected);
    }
    let picture = folder.with("bits.svg", b"old");
    let said = run_on(b"no frame", &["bits", "--svg", &picture, "-"]);
    assert_eq!(
        (status(&said), fs::read(&picture).unwrap()),
        (1, b"old".to_vec())
    );
}

/// An output that is there stays as it was if the input is refused, cannot be read or is the same file; and nothing is left beside it.
#[test]
fn outputs_are_whole_or_not_there() {
    let folder = Folder::new("outputs");
    let stream = frame("header-mix-levels.ac3");
    let good = folder.with("good.ac3", &stream);
    let cut = folder.with("cut.ac3", &stream[..1000]);
    let old = folder.with("old", b"old");
    fs::set_permissions(&old, fs::Permissions::from_mode(0o640)).unwrap();
    std::os::unix::fs::symlink("old", folder.at("link")).unwrap();
    let names = folder.names();
    let untouched = || {
        assert_eq!(fs::read(&old).unwrap(), b"old");
        assert_eq!(fs::read(&good).unwrap(), stream);
        assert_eq!(folder.names(), names);
    };

    assert_eq!(status(&run(&["burst", &cut, &old])), 1);
    assert_eq!(status(&run(&["unburst", &good, &old])), 1);
    assert_eq!(status(&run(&["burst", &cut, &folder.at("new")])), 1);
    assert_eq!(status(&run(&["burst", &folder.at("missing"), &old])), 2);
    assert_eq!(status(&run(&["burst", &folder.at(""), &old])), 2);
    assert_eq!(
        status(&run(&["burst", &good, &folder.at("missing/new")])),
        2
    );
    assert_eq!(status(&run(&["burst", &good, &folder.at("")])), 2);
    assert_eq!(status(&run(&["salvage", &good, &good])), 2);
    assert_eq!(
        status(&run(&["salvage", &good, &folder.at("./good.ac3")])),
        2
    );
    untouched();

    // A link is followed, the permissions stay, and a device is written to.
    let said = run(&["salvage", &cut, &folder.at("link")]);
    let told = "gap at byte 768, length 232\n1 frame, 1 gap, 232 bytes lost\n";
    assert_eq!((status(&said), out(&said)), (1, told.into()));
    assert_eq!(fs::read(&old).unwrap(), stream[..768]);
    let mode = fs::metadata(&old).unwrap().permissions().mode();
    assert_eq!(mode & 0o777, 0o640);
    assert_eq!(folder.names(), names);
    assert_eq!(status(&run(&["burst", &good, "/dev/null"])), 0);
    assert!(!Path::new("/dev/null").is_file());

    // Over the input, if that is asked for.
    assert_eq!(status(&run(&["salvage", "--in-place", &cut])), 1);
    assert_eq!(fs::read(&cut).unwrap(), stream[..768]);
    assert_eq!(status(&run(&["salvage", "--in-place", &cut, &old])), 2);
    assert_eq!(status(&run(&["salvage", "--in-place", "-"])), 2);
    assert_eq!(folder.names(), names);
}

/// A pipe that nobody reads any more: that of a program that has ended.
fn closed() -> Stdio {
    let mut ended = Command::new("true");
    let mut ended = ended.stdin(Stdio::piped()).spawn().unwrap();
    let pipe = ended.stdin.take().unwrap();
    ended.wait().unwrap();
    pipe.into()
}

/// Whoever reads may go, and what cannot be written is trouble: no panic, and nothing is said to nobody.
#[test]
fn readers_that_go() {
    let long = frame("speed-c.ac3").repeat(8);
    let folder = Folder::new("readers");
    let capture = folder.with("long.ac3", &long);
    let all = ["list", "--all", "--room=4067", &capture];
    let levels = ["levels", &capture];
    let burst = ["burst", &capture, "-"];
    let help = ["list", "--help"];
    for arguments in [&all[..], &levels, &burst, &help] {
        let mut unread = command();
        unread.args(arguments).stdin(Stdio::null()).stdout(closed());
        let output = unread.output().unwrap();
        assert_eq!(
            (status(&output), err(&output)),
            (2, String::new()),
            "{arguments:?}"
        );

        let full = fs::File::options().write(true).open("/dev/full").unwrap();
        let mut command = command();
        command.args(arguments).stdin(Stdio::null()).stdout(full);
        let output = command.output().unwrap();
        assert_eq!(status(&output), 2, "{arguments:?}");
        assert!(
            err(&output).starts_with("ferrysprig: standard output: "),
            "{}",
            err(&output)
        );
    }
    // Nor where nothing can be said.
    let full = fs::File::options().write(true).open("/dev/full").unwrap();
    let mut command = command();
    let silent = command.args(["list", "missing"]).stderr(full).status();
    assert_eq!(silent.unwrap().code(), Some(2));
}

/// Every command with bytes of any kind: it accepts or refuses them. (A panic would be status 101.)
#[test]
fn any_bytes_are_answered() {
    let folder = Folder::new("any");
    let good = frame("header-mix-levels.ac3");
    let mut random = random();
    let mut inputs = vec![
        vec![],
        vec![0x0B],
        vec![0x0B, 0x77, 0, 0, 0, 0],
        vec![0; 7000],
    ];
    inputs.push((0..9000).map(|_| random(256) as u8).collect());
    inputs.push([0x0B, 0x77].repeat(3000));
    inputs.push(burst::write(&good, 0).unwrap()[..6143].to_vec());
    for _ in 0..3 {
        let mut damaged = good.clone();
        for _ in 0..20 {
            let at = random(damaged.len());
            damaged[at] ^= 1 << random(8);
        }
        inputs.push(damaged);
    }
    let out = folder.at("out");
    let mut refused = 0;
    for input in &inputs {
        for arguments in [
            &["list", "-"][..],
            &["list", "--all", "--names", "-"],
            &["list", "--all", "--json", "-"],
            &["levels", "--changes", "-"],
            &["header", "-"],
            &["profile", "-"],
            &["burst", "-", &out],
            &["unburst", "-", &out],
            &["salvage", "-", &out],
            &["pack", "-", &out],
            &["unpack", "-", &out],
            &["set-level", "24", "-", &out],
            &["index", "make", "-", &out],
            &["bits", "--all", "-"],
        ] {
            let said = run_on(input, arguments);
            let told = err(&said);
            match status(&said) {
                0 => assert_eq!(told, "", "{arguments:?}"),
                1 if arguments[0] == "salvage" || arguments[0] == "profile" => (),
                1 => {
                    assert!(told.contains(": at byte "), "{arguments:?}: {told}");
                    assert!(told.contains(": refusal "), "{arguments:?}: {told}");
                    refused += 1;
                }
                other => panic!("{arguments:?}: status {other}, {told}"),
            }
        }
    }
    assert!(refused > 40, "{refused} refused");
}

/// Arguments of any kind: what is no call is told, with status 2.
#[test]
fn any_arguments_are_answered() {
    let none: [&str; 0] = [];
    assert_eq!(status(&run(&none)), 2);
    for wrong in [
        &["lists"][..],
        &["--lists"],
        &["list"],
        &["list", "one", "two"],
        &["list", "--nothing", "one"],
        &["list", "--all=yes", "one"],
        &["list", "--at"],
        &["list", "--at", "-1", "one"],
        &["list", "--at", "99999999999999999999", "one"],
        &["list", "--all", "--all", "one"],
        &["list", "--names", "--json", "one"],
        &["burst", "one"],
        &["completion", "fish"],
        &["help", "lists"],
        &["help", "list", "levels"],
        &["--version", "2"],
    ] {
        let said = run(wrong);
        assert_eq!((status(&said), out(&said)), (2, String::new()), "{wrong:?}");
        assert!(
            err(&said).contains("\nusage: ferrysprig "),
            "{wrong:?}: {}",
            err(&said)
        );
    }
    // What is no Unicode: as a command, an option, a file, a number.
    let odd = || OsString::from_vec(b"-\xFF=\xFE".to_vec());
    let file = OsString::from_vec(b"\xFF.ac3".to_vec());
    for wrong in [
        vec![odd()],
        vec!["list".into(), odd()],
        vec!["list".into(), file.clone()],
        vec!["list".into(), "--".into(), odd()],
        vec!["list".into(), "--at".into(), file.clone(), file.clone()],
    ] {
        let said = run(&wrong);
        assert_eq!((status(&said), out(&said)), (2, String::new()), "{wrong:?}");
    }
    // A file of such a name is a file.
    let folder = Folder::new("names");
    let odd = folder.0.join(file);
    fs::write(&odd, frame("fixed-2_0.ac3")).unwrap();
    let said = run(&[OsStr::new("levels"), odd.as_os_str()]);
    assert_eq!(status(&said), 0);
    let dashed = folder.with("--all", &frame("fixed-2_0.ac3"));
    let mut command = command();
    command.current_dir(Path::new(&dashed).parent().unwrap());
    let said = command.args(["levels", "--", "--all"]).output().unwrap();
    assert_eq!(status(&said), 0);
}
