//! The listing program over the judge: the example of docs/FORMAT.md, its bytes, its rows.

use judge::craft::{sized, small};
use judge::listing::ROWS;
use std::io::Write;
use std::process::{Command, Stdio};

fn listing(arguments: &[&str], input: &[u8]) -> String {
    let mut child = Command::new(env!("CARGO_BIN_EXE_answer"))
        .args(arguments)
        .stdin(Stdio::piped())
        .stdout(Stdio::piped())
        .spawn()
        .expect("it runs");
    let mut pipe = child.stdin.take().expect("a pipe");
    // It may stop reading before the end: bytes from 3,840 on are not read.
    let _ = pipe.write_all(input);
    drop(pipe);
    let output = child.wait_with_output().expect("it ends");
    assert!(output.status.success());
    String::from_utf8(output.stdout).expect("text")
}

#[test]
fn the_example_byte_for_byte() {
    let expected = "1 1 -1 -1 -1 0 16 2935 -1\n\
                    2 2 -1 -1 -1 16 16 0 -1\n\
                    3 5 -1 -1 -1 32 2 3 -1\n\
                    4 5 -1 -1 -1 34 6 0 -1\n\
                    refused 3 4 40 0 -1\n";
    assert_eq!(
        listing(&[], &[0x0B, 0x77, 0x00, 0x00, 0xC0, 0x00]),
        expected
    );
}

#[test]
fn nothing_on_standard_input() {
    assert_eq!(listing(&[], &[]), "refused 1 0 0 0 -1\n");
}

#[test]
fn an_accepted_frame() {
    let frame = small(&|_| None);
    let text = listing(&[], &frame);
    let lines: Vec<&str> = text.lines().collect();
    assert_eq!(lines.len(), 96);
    assert_eq!(lines[95], "audio 95 128 204");
    // The last of the exponent's groups: the channel ends at bin 73, D45.
    let groups = lines.iter().filter(|line| line.starts_with("76 "));
    assert_eq!(groups.last(), Some(&"76 0 -1 0 0 117 7 62 5"));
    assert_eq!(lines[94], "111 15 -1 5 -1 204 0 0 -1");
    assert!(text.ends_with('\n'));
}

#[test]
fn later_bytes_are_not_read() {
    let mut long = small(&|_| None);
    long.resize(200_000, 0xFF);
    assert_eq!(listing(&[], &long).lines().last(), Some("audio 95 128 204"));
}

#[test]
fn it_lends_so_many_rows() {
    let dense = sized(2, 37, &|a| match a.name {
        "acmod" => Some(7),
        "chexpstr" => Some(1),
        "chbwcod" => Some(60),
        _ => None,
    });
    let text = listing(&[], &dense);
    let lines: Vec<&str> = text.lines().collect();
    assert_eq!(lines.len(), ROWS + 1);
    assert!(lines[ROWS].starts_with(&format!("refused 7 {ROWS} ")));
    assert!(lines[ROWS].ends_with(" 0 -1"));
    // With more rows the frame is accepted.
    let text = listing(&["--all"], &dense);
    assert!(text.lines().last().unwrap().starts_with("audio 2778 3840 "));
}

#[test]
fn all_frames_of_a_stream() {
    let frame = small(&|_| None);
    let mut stream = [frame.clone(), frame].concat();
    stream.extend([0; 6]);
    let text = listing(&["--all"], &stream);
    let last_lines: Vec<&str> = text.lines().filter(|l| l.starts_with(['a', 'r'])).collect();
    assert_eq!(
        last_lines,
        [
            "audio 95 128 204",
            "audio 95 128 204",
            "refused 2 1 16 0 -1"
        ]
    );
}
