//! Edits: the list of names, every refusal of a value, and fields of the encoder's frames given other values.

mod files;

use ferrysprig::edit::{set, set_bits, Refusal};
use ferrysprig::{parse, parse_at, Field, Role, NAMES};
use judge::edit::editable;

#[test]
fn the_judges_list() {
    let of = |name| Field::new(name, Role::Plain, -1, -1, 0, 1, 0);
    for (n, name) in (1..).zip(NAMES) {
        assert_eq!(of(name).editable(), editable(n), "{name}");
    }
    // What the tail has is not in the list, nor is a name that nobody knows.
    for name in ["crc2", "crcrsv", "auxbits", "", "Compr"] {
        assert!(!of(name).editable(), "{name}");
    }
}

/// Refused so, by its number and its text, with nothing written.
fn refused(place: usize, position: usize, width: usize, value: usize, expected: Refusal) {
    let before = [0xA5; 4];
    let mut capture = before;
    let refusal = set_bits(&mut capture, place, position, width, value).unwrap_err();
    assert_eq!(refusal, expected);
    let (number, meaning) = (refusal.number(), refusal.meaning());
    assert_eq!(refusal.to_string(), format!("refusal {number}: {meaning}"));
    assert_eq!(capture, before);
}

#[test]
fn refusals_in_their_order() {
    let numbers =
        [Refusal::WrongWidth, Refusal::PastTheEnd, Refusal::TooLarge].map(Refusal::number);
    assert_eq!(numbers, [57, 58, 59]);
    for width in [0, 17, 64, usize::MAX] {
        refused(0, 0, width, 0, Refusal::WrongWidth);
        refused(9, 0, width, usize::MAX, Refusal::WrongWidth);
    }
    refused(0, 17, 16, 0, Refusal::PastTheEnd);
    refused(3, 1, 8, 256, Refusal::PastTheEnd);
    refused(4, 0, 1, 0, Refusal::PastTheEnd);
    // Counted by 64 bits these would be bit 0.
    refused(1 << 61, 0, 1, 0, Refusal::PastTheEnd);
    refused(1, usize::MAX - 7, 1, 0, Refusal::PastTheEnd);
    for width in 1..=16 {
        refused(0, 3, width, 1 << width, Refusal::TooLarge);
        refused(0, 3, width, (1 << 32) + 1, Refusal::TooLarge);
    }
    let empty = set_bits(&mut [], 0, 0, 1, 0);
    assert_eq!(empty, Err(Refusal::PastTheEnd));
}

#[test]
fn bits_as_the_original_sets_them() {
    let mut random = files::random();
    for _ in 0..20_000 {
        let before: Vec<u8> = (0..1 + random(9)).map(|_| random(256) as u8).collect();
        let width = 1 + random(16.min(8 * before.len()));
        let (place, value) = (random(before.len()), random(1 << width));
        let position = random(8 * before.len());
        let mut ours = before.clone();
        let answer = set_bits(&mut ours, place, position, width, value);
        let first = 8 * place + position;
        let mut expected = before.clone();
        if first + width > 8 * before.len() {
            assert_eq!(answer, Err(Refusal::PastTheEnd));
        } else {
            assert_eq!(answer, Ok(()));
            judge::bits::set(&mut expected, first, width, value as u32);
        }
        assert_eq!(ours, expected, "{place} {position} {width} {value}");
    }
}

/// Every field that may be edited, of every frame, one after the other and then all at once: the rest stays as it is.
#[test]
fn fields_of_the_encoders_frames() {
    let mut random = files::random();
    let (mut frames, mut names) = (0, Vec::new());
    for (name, mut stream) in files::frames() {
        let mut place = 0;
        while let Ok(frame) = parse_at(&stream, place) {
            let mut expected = frame.clone();
            let listed: Vec<usize> = (0..frame.fields.len())
                .filter(|i| frame.fields[*i].editable())
                .collect();
            for (n, i) in listed.into_iter().enumerate() {
                let field = &frame.fields[i];
                let value = random(1 << field.width) as u32;
                set(&mut stream, place, field, value).unwrap();
                expected.fields[i].value = value;
                names.push(field.name);
                if n % 50 == 0 {
                    assert_eq!(parse_at(&stream, place).unwrap(), expected, "{name}");
                }
            }
            assert_eq!(parse_at(&stream, place).unwrap(), expected, "{name}");
            place += frame.summary.bytes;
            frames += 1;
        }
        assert!(place == stream.len() || name.starts_with("refused-"));
    }
    names.sort_unstable();
    names.dedup();
    assert!(frames > 200, "{frames} frames");
    assert!(names.len() > 20, "{names:?}");
}

#[test]
fn spans_are_no_values() {
    let mut frame = files::frame("rate-192-2_0-tones.ac3");
    let parsed = parse(&frame).unwrap();
    let before = frame.clone();
    for span in parsed.fields.iter().filter(|f| f.role.is_span()) {
        assert!(!span.editable());
        if span.width == 0 || span.width > 16 {
            let answer = set(&mut frame, 0, span, 0);
            assert_eq!(answer, Err(Refusal::WrongWidth));
        }
    }
    assert_eq!(frame, before);
}

#[test]
fn a_refusal_is_an_error() {
    fn fails() -> Result<(), Box<dyn std::error::Error>> {
        set_bits(&mut [0], 0, 0, 8, 256)?;
        Ok(())
    }
    assert_eq!(
        fails().unwrap_err().to_string(),
        "refusal 59: the value does not fit the width"
    );
}
