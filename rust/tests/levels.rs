//! Level correction: every level over the encoder's frames, two programmes, every refusal, and what a refusal leaves alone.

mod files;

use ferrysprig::level::{correct_level, correct_level_into, Changed, Refusal};
use ferrysprig::{edit, parse, parse_at, MOST_ROWS, ROW_NUMBERS};
use judge::craft::{sized, Asked};
use judge::frame::{crc_status, fix_crcs, Codec, CrcStatus};

const RIGHT: CrcStatus = CrcStatus {
    crc1: Some(true),
    crc2: true,
};

/// The original's own way: the level edited, and every checksum made anew.
fn by_the_original(frame: &[u8], name: &str, level: usize) -> Vec<u8> {
    let mut edited = frame.to_vec();
    let field = parse(frame).unwrap().named(name).unwrap().clone();
    edit::set(&mut edited, 0, &field, level as u32).unwrap();
    fix_crcs(Codec::Ac3, &mut edited);
    edited
}

#[test]
fn the_encoders_frames() {
    let mut frames = 0;
    for (name, stream) in files::frames() {
        let mut place = 0;
        while let Ok(frame) = parse_at(&stream, place) {
            let (level, mut corrected) = (1 + frames % 31, stream.clone());
            let end = place + frame.summary.bytes;
            let told = correct_level(&mut corrected, place, 1, level);
            if 8 * frame.summary.bytes < frame.summary.audio_end + 18 {
                assert_eq!((told, corrected == stream), (Err(Refusal::NoTail), true));
                place = end;
                continue;
            }
            let changes = told.unwrap();
            assert!(corrected[..place] == stream[..place] && corrected[end..] == stream[end..]);
            let expected = by_the_original(&stream[place..end], "dialnorm", level);
            assert!(corrected[place..end] == expected, "{name} at byte {place}");
            assert_eq!(crc_status(Codec::Ac3, &corrected[place..end]), RIGHT);
            // The fields are the same but for the values that are told.
            let after = parse_at(&corrected, place).unwrap();
            let mut told = frame.clone();
            for change in &changes {
                let of_name = told
                    .fields
                    .iter_mut()
                    .filter(|f| f.name == change.field.name());
                for field in of_name {
                    assert_eq!(field.value, change.old.into());
                    field.value = change.new.into();
                }
            }
            assert_eq!(told, after, "{name} at byte {place}");
            let again = correct_level(&mut corrected, place, 1, level).unwrap();
            assert!(again.is_empty(), "{again:?}");
            frames += 1;
            place = end;
        }
    }
    assert!(frames > 100, "{frames} frames");
}

/// A frame of two programmes, of 384 bytes, with levels 27 and 0.
fn two() -> Vec<u8> {
    sized(0, 12, &|asked: &Asked| match asked.name {
        "acmod" => Some(0),
        "dialnorm" => Some(27),
        _ => None,
    })
}

#[test]
fn two_programmes() {
    for (programme, name, field, old) in [
        (1, "dialnorm", Changed::Dialnorm, 27),
        (2, "dialnorm2", Changed::Dialnorm2, 0),
    ] {
        let mut frame = two();
        let changes = correct_level(&mut frame, 0, programme, 9).unwrap();
        let level = changes[1];
        assert_eq!((level.field, level.old, level.new), (field, old, 9));
        assert_eq!(frame, by_the_original(&two(), name, 9));
    }
    for programme in [0, 3, usize::MAX] {
        let mut frame = two();
        let refusal = correct_level(&mut frame, 0, programme, 0);
        assert_eq!(refusal, Err(Refusal::NoSuchProgramme));
        assert_eq!(frame, two());
    }
}

/// The audio of this frame ends two bits before its end.
#[test]
fn audio_up_to_the_end() {
    let stream = std::fs::read(files::path("interface/two-programmes.ac3")).unwrap();
    let summary = parse(&stream).unwrap().summary;
    assert_eq!((summary.bytes, summary.audio_end), (192, 1534));
    for (programme, level, expected) in [
        (2, 9, Refusal::NoTail),
        (2, 0, Refusal::WrongLevel),
        (3, 9, Refusal::NoSuchProgramme),
    ] {
        let mut frame = stream.clone();
        assert_eq!(
            correct_level(&mut frame, 0, programme, level),
            Err(expected)
        );
        assert_eq!(frame, stream);
    }
}

#[test]
fn refusals() {
    let stream = files::frame("rate-192-2_0-tones.ac3");
    let frame = &stream[..768];
    let rows = parse(frame).unwrap().fields.len();
    for (bytes, place, programme, level, room, expected) in [
        (768, 1, 1, 20, MOST_ROWS, Refusal::Frame(2)),
        (767, 0, 0, 0, MOST_ROWS, Refusal::Frame(4)),
        (768, usize::MAX, 1, 20, MOST_ROWS, Refusal::Frame(1)),
        (768, 0, 1, 20, rows - 1, Refusal::Frame(7)),
        (768, 0, 0, 20, rows, Refusal::NoSuchProgramme),
        (768, 0, 2, 32, rows, Refusal::NoSuchProgramme),
        (768, 0, 1, 0, rows, Refusal::WrongLevel),
        (768, 0, 1, 32, rows, Refusal::WrongLevel),
        (768, 0, 1, usize::MAX, rows, Refusal::WrongLevel),
    ] {
        let mut capture = frame[..bytes].to_vec();
        let mut room = vec![0; room * ROW_NUMBERS];
        let told = correct_level_into(&mut capture, place, programme, level, &mut room);
        assert_eq!(told, Err(expected));
        assert!(capture == frame[..bytes], "{expected} writes nothing");
        let text = format!("refusal {}: {}", expected.number(), expected.meaning());
        assert_eq!(expected.to_string(), text);
    }
}

#[test]
fn rows_are_those_of_the_frame_as_it_was() {
    let mut frame = files::frame("header-production.ac3");
    let before = parse(&frame).unwrap();
    let mut room = vec![0; MOST_ROWS * ROW_NUMBERS];
    let changes = correct_level_into(&mut frame, 0, 1, 24, &mut room).unwrap();
    assert_eq!(changes[1].old, 20);
    let values: Vec<u32> = room.chunks(ROW_NUMBERS).map(|row| row[7] as u32).collect();
    let expected: Vec<u32> = before.fields.iter().map(|field| field.value).collect();
    assert_eq!(values[..expected.len()], expected);
}
