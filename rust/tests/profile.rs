//! The profile: over the encoder's frames as they are and with values edited, the refusals, and the lent room.

mod files;

use ferrysprig::profile::{check, check_into, Profile, Rule};
use ferrysprig::{edit, parse, parse_at, parse_into, Frame, MOST_ROWS, ROW_NUMBERS};

/// The first broken rule of a frame and its row, from its fields and its length.
fn expected(frame: &Frame) -> Profile {
    let row = |name: &str| frame.fields.iter().position(|f| f.name == name).unwrap();
    let value = |name: &str| frame.fields[row(name)].value;
    let delta = frame.fields.iter();
    let delta = delta
        .enumerate()
        .find(|(_, f)| f.name == "deltbaie" && f.value == 1);
    let broken = |rule, row| Profile::Broken { rule, row };
    if value("fscod") != 0 {
        broken(Rule::Fscod, row("fscod"))
    } else if !matches!(value("acmod"), 2 | 7) {
        broken(Rule::Acmod, row("acmod"))
    } else if !matches!(value("bsid"), 6 | 8) {
        broken(Rule::Bsid, row("bsid"))
    } else if frame.summary.bytes < 768 {
        broken(Rule::Words, row("frmsizecod"))
    } else if value("lfeon") == 1 && value("acmod") != 7 {
        broken(Rule::Lfeon, row("lfeon"))
    } else if let Some((row, _)) = delta {
        broken(Rule::Deltbaie, row)
    } else if value("dialnorm") == 0 {
        broken(Rule::Dialnorm, row("dialnorm"))
    } else {
        Profile::Within
    }
}

/// The frame with another value in its field of a name.
fn edited(frame: &[u8], name: &str, value: u32) -> Vec<u8> {
    let mut edited = frame.to_vec();
    let field = parse(frame).unwrap().named(name).unwrap().clone();
    edit::set(&mut edited, 0, &field, value).unwrap();
    edited
}

/// The first frame of a file that is within the profile: acmod 2, words 384.
fn within() -> Vec<u8> {
    let stream = files::frame("rate-192-2_0-tones.ac3");
    stream[..parse(&stream).unwrap().summary.bytes].to_vec()
}

#[test]
fn the_encoders_frames() {
    let (mut frames, mut within) = (0, 0);
    for (name, stream) in files::frames() {
        let mut place = 0;
        while place < stream.len() {
            let frame = match parse_at(&stream, place) {
                Ok(frame) => frame,
                Err(refusal) => {
                    let told = check(&stream, place).unwrap_err();
                    assert_eq!(told.number, refusal.number, "{name}");
                    break;
                }
            };
            let told = check(&stream, place).unwrap();
            assert_eq!(told, expected(&frame), "{name} at byte {place}");
            within += usize::from(told == Profile::Within);
            place += frame.summary.bytes;
            frames += 1;
        }
    }
    assert!(within > 0 && frames > within, "{within} of {frames}");
}

#[test]
fn edges_of_the_rules() {
    let frame = within();
    assert_eq!((frame.len(), check(&frame, 0)), (768, Ok(Profile::Within)));
    for dialnorm in 0..32 {
        let told = check(&edited(&frame, "dialnorm", dialnorm), 0).unwrap();
        let broken = Profile::Broken {
            rule: Rule::Dialnorm,
            row: 9,
        };
        let expected = if dialnorm == 0 {
            broken
        } else {
            Profile::Within
        };
        assert_eq!(told, expected, "dialnorm {dialnorm}");
    }
    // Other values of bsid than 6 have one syntax.
    for bsid in [0, 1, 2, 3, 4, 5, 7] {
        let told = check(&edited(&frame, "bsid", bsid), 0).unwrap();
        let rule = Rule::Bsid;
        assert_eq!(told, Profile::Broken { rule, row: 4 }, "bsid {bsid}");
        let both = edited(&edited(&frame, "dialnorm", 0), "bsid", bsid);
        assert_eq!(check(&both, 0), Ok(told), "the first rule is told");
    }
}

#[test]
fn refusals_are_those_of_the_parse() {
    let frame = within();
    let mut room = vec![7; MOST_ROWS * ROW_NUMBERS];
    let rows = parse(&frame).unwrap().fields.len();
    for (bytes, place, numbers, number) in [
        (768, usize::MAX, room.len(), 1),
        (768, 1, room.len(), 2),
        (767, 0, room.len(), 4),
        (768, 0, rows * ROW_NUMBERS - 1, 7),
        (768, 0, 0, 7),
    ] {
        let (told, mut parsed) = (&mut room[..numbers], vec![7; numbers]);
        told.fill(7);
        let refusal = check_into(&frame[..bytes], place, told).unwrap_err();
        let of_parse = parse_into(&frame[..bytes], place, &mut parsed).unwrap_err();
        assert_eq!((refusal.number, of_parse.number), (number, number));
        assert_eq!(refusal.meaning(), of_parse.meaning());
        assert!(refusal
            .to_string()
            .starts_with(&format!("refusal {number}: ")));
        assert!(*told == parsed[..], "the room at refusal {number}");
    }
    let bsid = edited(&frame, "bsid", 9);
    assert_eq!(check(&bsid, 0).unwrap_err().number, 5);
}

#[test]
fn the_fields_are_those_of_the_parse() {
    let frame = edited(&within(), "dialnorm", 0);
    let mut room = vec![7; MOST_ROWS * ROW_NUMBERS];
    let (told, fields) = check_into(&frame, 0, &mut room).unwrap();
    let list: Vec<_> = fields.collect();
    assert_eq!(list, parse(&frame).unwrap().fields);
    let Profile::Broken { rule, row } = told else {
        panic!("dialnorm is 0");
    };
    assert_eq!(
        (rule, list[row].name, list[row].value),
        (Rule::Dialnorm, "dialnorm", 0)
    );
    assert!(room[list.len() * ROW_NUMBERS..].iter().all(|n| *n == 7));
}
