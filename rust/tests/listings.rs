//! Packed listings: there and back over the listings of the encoder's frames, every refusal, and what a refusal leaves alone.

mod files;

use ferrysprig::listing::{most_text, pack, pack_into, unpack, unpack_into, Refusal};
use ferrysprig::{parse_into, Refusal as OfFrame, MOST_ROWS, ROW_NUMBERS};

/// The text of a stream's first frame, as the listing program prints it, in so many rows.
fn listing(stream: &[u8], rows: usize) -> String {
    let mut room = vec![0; rows * ROW_NUMBERS];
    let parsed = parse_into(stream, 0, &mut room);
    let (count, last) = match parsed {
        Ok(frame) => {
            let (rows, summary) = (frame.fields.len(), frame.summary);
            let last = format!("audio {rows} {} {}\n", summary.bytes, summary.audio_end);
            (rows, last)
        }
        Err(OfFrame {
            number,
            bit,
            rows,
            unfit,
            ..
        }) => {
            let (name, block) = unfit.map_or((0, -1), |unfit| (number_of(unfit.name), unfit.block));
            let count = rows.len();
            (
                count,
                format!("refused {number} {count} {bit} {name} {block}\n"),
            )
        }
    };
    let mut text = String::new();
    for row in room.chunks(ROW_NUMBERS).take(count) {
        let numbers: Vec<String> = row.iter().map(i32::to_string).collect();
        text += &(numbers.join(" ") + "\n");
    }
    text + &last
}

fn number_of(name: &str) -> usize {
    let at = ferrysprig::NAMES.iter().position(|known| *known == name);
    1 + at.unwrap()
}

#[test]
fn listings_of_the_encoders_frames_come_back() {
    let (mut listings, mut text_bytes, mut packed_bytes) = (0, 0, 0);
    for (name, stream) in files::frames() {
        for rows in [MOST_ROWS, 50, 0] {
            let text = listing(&stream, rows);
            let packed = pack(text.as_bytes()).unwrap();
            assert_eq!(unpack(&packed).unwrap(), text.as_bytes(), "{name}");
            assert!(text.len() <= most_text(packed.len()), "{name}");
            let mut judged = vec![0; text.len()];
            let [refusal, written] = judge::packed::pack(text.as_bytes(), &mut judged);
            assert_eq!((refusal, &judged[..written]), (0, &packed[..]), "{name}");
            listings += 1;
            text_bytes += text.len();
            packed_bytes += packed.len();
        }
    }
    assert!(listings > 250 && 2 * packed_bytes < text_bytes);
}

const MARK: u8 = 0xA5;

/// Refused so, by its number and its text, whatever the room, with no byte of it touched.
fn refused(input: &[u8], packs: bool, number: u8, expected: Refusal) {
    for room in [0, 5, 400] {
        let mut out = vec![MARK; room];
        let told = match packs {
            true => pack_into(input, &mut out),
            false => unpack_into(input, &mut out),
        };
        let refusal = told.unwrap_err();
        assert_eq!((refusal, refusal.number()), (expected, number), "{input:?}");
        let text = format!("refusal {number}: {}", refusal.meaning());
        assert_eq!(refusal.to_string(), text);
        assert!(out.iter().all(|byte| *byte == MARK));
    }
    let told = if packs { pack(input) } else { unpack(input) };
    assert_eq!(told, Err(expected));
}

#[test]
fn refusals_of_texts() {
    for (text, number, expected) in [
        ("", 43, Refusal::Ends),
        ("audio 1 2 3", 43, Refusal::Ends),
        ("1 2 3 4 5 6 7 8 9\n", 43, Refusal::Ends),
        ("audio 1 2 2147483648", 42, Refusal::TooLarge),
        ("audio 1 2 -0\n", 40, Refusal::Malformed),
        ("audio 1 2 03\n", 40, Refusal::Malformed),
        ("refused 1 2 3\n", 40, Refusal::Malformed),
        ("1 2 3 4 5 6 7 8\n", 40, Refusal::Malformed),
        ("audio 1 2 3\n\n", 44, Refusal::LeftOver),
    ] {
        refused(text.as_bytes(), true, number, expected);
    }
}

#[test]
fn refusals_of_packed_forms() {
    for (packed, number, expected) in [
        (&[][..], 43, Refusal::Ends),
        (&[1, 1, 1, 1], 43, Refusal::Ends),
        (&[1, 1, 0x80, 0], 41, Refusal::NeedlessGroup),
        (&[0x80, 0], 41, Refusal::NeedlessGroup),
        (&[1, 1, 0x81, 0x80, 0x80, 0x80, 8], 42, Refusal::TooLarge),
        (&[0], 46, Refusal::WrongNumber),
        (&[1, 0], 46, Refusal::WrongNumber),
        (&[1, 3], 46, Refusal::WrongNumber),
        (&[1, 1, 1, 1, 1, 1], 44, Refusal::LeftOver),
    ] {
        refused(packed, false, number, expected);
    }
}

#[test]
fn lent_room() {
    let (text, packed) = (
        b"audio 1 128 2147483647\n",
        [1, 1, 2, 0x81, 1, 0x80, 0x80, 0x80, 0x80, 8],
    );
    let mut out = [MARK; 40];
    assert_eq!(pack_into(text, &mut out[..9]), Err(Refusal::NoRoom));
    assert_eq!(unpack_into(&packed, &mut out[..22]), Err(Refusal::NoRoom));
    assert_eq!(out, [MARK; 40]);
    assert_eq!(pack_into(text, &mut out[..10]), Ok(&packed[..]));
    assert_eq!(out[10..], [MARK; 30]);
    assert_eq!(unpack_into(&packed, &mut out[..23]), Ok(&text[..]));
    assert_eq!(out[23..], [MARK; 17]);
}
