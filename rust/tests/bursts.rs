//! Bursts: there and back over the encoder's frames, every refusal, and what a refusal leaves alone.

mod files;

use ferrysprig::burst::{self, Refusal};
use ferrysprig::{parse_at, MOST_BYTES, MOST_ROWS, ROW_NUMBERS};

const MARK: u8 = 0xA5;

/// Reads into marked output of some bytes: what is answered, and the output after it.
fn read_marked(burst: &[u8], rows: usize, bytes: usize) -> (Result<Vec<u8>, Refusal>, Vec<u8>) {
    let (mut rows, mut out) = (vec![0; rows * ROW_NUMBERS], vec![MARK; bytes]);
    let answer = burst::read_into(burst, &mut rows, &mut out).map(<[u8]>::to_vec);
    (answer, out)
}

/// The same of writing.
fn write_marked(
    capture: &[u8],
    place: usize,
    rows: usize,
    bytes: usize,
) -> (Result<Vec<u8>, Refusal>, Vec<u8>) {
    let (mut rows, mut out) = (vec![0; rows * ROW_NUMBERS], vec![MARK; bytes]);
    let answer = burst::write_into(capture, place, &mut rows, &mut out).map(<[u8]>::to_vec);
    (answer, out)
}

/// Refused so, by its number and its text, with no byte of the output touched.
fn refused(given: (Result<Vec<u8>, Refusal>, Vec<u8>), number: u8, expected: Refusal) {
    let (answer, out) = given;
    let refusal = answer.unwrap_err();
    assert_eq!((refusal, refusal.number()), (expected, number));
    assert!(refusal
        .to_string()
        .starts_with(&format!("refusal {number}: ")));
    assert!(out.iter().all(|byte| *byte == MARK), "{refusal}");
}

fn example() -> (Vec<u8>, Vec<u8>) {
    let stream = files::frame("rate-192-2_0-tones.ac3");
    let frame = stream[..parse_at(&stream, 0).unwrap().summary.bytes].to_vec();
    let burst = burst::write(&stream, 0).unwrap();
    (frame, burst)
}

/// The example's burst with one byte changed.
fn changed(at: usize, by: u8) -> Vec<u8> {
    let (_, mut burst) = example();
    burst[at] ^= by;
    burst
}

#[test]
fn there_and_back() {
    let mut frames = 0;
    for (name, stream) in files::frames() {
        let mut place = 0;
        while place < stream.len() {
            let parsed = match parse_at(&stream, place) {
                Ok(parsed) => parsed,
                Err(refusal) => {
                    assert!(name.starts_with("refused-"), "{name}: {refusal}");
                    let expected = Refusal::Frame(refusal.number);
                    assert_eq!(burst::write(&stream, place), Err(expected), "{name}");
                    break;
                }
            };
            let frame = &stream[place..place + parsed.summary.bytes];
            let bsmod = parsed.named("bsmod").unwrap().value as u8;
            let [high, low] = (8 * frame.len() as u16).to_be_bytes();
            let mut expected = vec![0xF8, 0x72, 0x4E, 0x1F, bsmod, 1, high, low];
            expected.extend(frame);
            expected.resize(6144, 0);
            assert_eq!(burst::write(&stream, place).unwrap(), expected, "{name}");
            assert_eq!(burst::write(frame, 0).unwrap(), expected, "{name}");
            assert_eq!(burst::read(&expected).unwrap(), frame, "{name}");
            place += frame.len();
            frames += 1;
        }
    }
    assert!(frames > 200, "{frames} frames");
}

#[test]
fn refusals_of_reading_in_their_order() {
    let read = |burst: &[u8]| read_marked(burst, MOST_ROWS, MOST_BYTES);
    let (_, burst) = example();
    refused(read(&[]), 30, Refusal::NotABurst);
    refused(read(&burst[..6143]), 30, Refusal::NotABurst);
    refused(read(&[&burst[..], &[0]].concat()), 30, Refusal::NotABurst);
    for (at, by) in [(0, 1), (1, 1), (2, 1), (3, 1), (4, 8), (5, 2)] {
        refused(read(&changed(at, by)), 31, Refusal::WrongWords);
    }
    refused(read(&changed(8, 1)), 2, Refusal::Frame(2));
    refused(read(&changed(12, 0xC0)), 3, Refusal::Frame(3));
    refused(read(&changed(7, 1)), 32, Refusal::WrongLength);
    refused(read(&changed(6143, 1)), 33, Refusal::NotZero);
    refused(read(&changed(4, 1)), 34, Refusal::OtherBsmod);
}

#[test]
fn room_for_the_output() {
    let (frame, burst) = example();
    let bytes = frame.len();
    let read = |out| read_marked(&burst, MOST_ROWS, out);
    refused(read(0), 28, Refusal::NoRoom);
    refused(read(bytes - 1), 28, Refusal::NoRoom);
    assert_eq!(read(bytes), (Ok(frame.clone()), frame.clone()));
    let (answer, out) = read(bytes + 1);
    assert_eq!((answer.unwrap(), out[bytes]), (frame.clone(), MARK));

    let write = |out| write_marked(&frame, 0, MOST_ROWS, out);
    refused(write(0), 28, Refusal::NoRoom);
    refused(write(6143), 28, Refusal::NoRoom);
    assert_eq!(write(6144), (Ok(burst.clone()), burst.clone()));
    let (answer, out) = write(6145);
    assert_eq!((answer.unwrap(), out[6144]), (burst, MARK));
}

#[test]
fn a_frames_own_refusals_of_writing() {
    let (frame, burst) = example();
    let write = |capture: &[u8], place, rows| write_marked(capture, place, rows, burst::BYTES);
    refused(write(&frame, frame.len(), MOST_ROWS), 1, Refusal::Frame(1));
    refused(write(&frame, usize::MAX, MOST_ROWS), 1, Refusal::Frame(1));
    refused(write(&frame, 1, MOST_ROWS), 2, Refusal::Frame(2));
    refused(write(&frame[1..], 0, MOST_ROWS), 2, Refusal::Frame(2));
    let cut = &frame[..frame.len() - 1];
    refused(write(cut, 0, MOST_ROWS), 4, Refusal::Frame(4));
    let rows = parse_at(&frame, 0).unwrap().fields.len();
    refused(write(&frame, 0, rows - 1), 7, Refusal::Frame(7));
    assert!(write(&frame, 0, rows).0.is_ok());
    // Before the output's room is looked at.
    refused(write_marked(cut, 0, MOST_ROWS, 0), 4, Refusal::Frame(4));
    refused(
        read_marked(&burst, rows - 1, MOST_BYTES),
        7,
        Refusal::Frame(7),
    );
}

#[test]
fn a_refusal_is_an_error() {
    fn fails() -> Result<(), Box<dyn std::error::Error>> {
        burst::read(b"not a burst")?;
        Ok(())
    }
    assert_eq!(
        fails().unwrap_err().to_string(),
        "refusal 30: the burst is not 6,144 bytes"
    );
    assert_eq!(
        burst::write(b"not AC-3", 0).unwrap_err().to_string(),
        "refusal 2: the sync word is not 0x0B77"
    );
    let unknown = Refusal::Frame(0);
    assert_eq!(unknown.meaning(), "no refusal has this number");
}
