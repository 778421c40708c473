//! Header and blocks apart: cases by name, each with the answer that the description gives, written out; how long a header can be; and
//! slips that the generator's calls must notice.

use judge::agree::{fresh_room, untouched};
use judge::apart::{blocks, header, LONGEST, MOST_ROWS};
use judge::apart_cases::{required, Apart, Case, Told};
use judge::cases::Amounts;
use judge::craft::{sized, small, Asked};
use judge::cut::{ac3, answer, Bytes, Cursor};
use judge::layout::{header_at, row_at, HeaderAnswer, ANSWER, HEADER_ANSWER, ROW};
use judge::names::number;

/// fscod 3: refused after four rows.
const EXAMPLE: [u8; 6] = [0x0B, 0x77, 0, 0, 0xC0, 0];

/// The smallest frame, and what its header answers: 17 rows up to bit 65, 128 bytes, bsid 8, acmod 1.
fn smallest() -> (Vec<u8>, HeaderAnswer) {
    let told = [0, 17, 65, 0, -1, 128, 8, 1, 0, 0];
    (small(&|_| None), told)
}

/// What `header` answers in room for so many rows; they must be the first of the parse's, and the rest untouched.
fn told(capture: &[u8], place: usize, rows: usize) -> HeaderAnswer {
    let mut room = fresh_room(ROW * rows + 3);
    let mut parsed = room.clone();
    let told = header(capture, place, &mut room);
    answer(capture, place, &mut parsed);
    let written = ROW * told[header_at::ROWS] as usize;
    assert_eq!(room[..written], parsed[..written]);
    assert!((written..room.len()).all(|i| room[i] == untouched(i)));
    told
}

/// `blocks` refuses the header answer with 24, and touches nothing.
fn refused(capture: &[u8], place: usize, rows: usize, given: &HeaderAnswer) {
    let mut room = fresh_room(ROW * rows + 3);
    let told = blocks(capture, place, &mut room, given);
    let mut expected = [0; ANSWER];
    (expected[0], expected[25]) = (24, -1);
    assert_eq!(told, expected, "{given:?}");
    assert_eq!(room, fresh_room(ROW * rows + 3), "{given:?}");
}

/// `blocks` takes the header answer, and answers and leaves what the parse does. Gives refusal, rows and bit.
fn taken(capture: &[u8], place: usize, rows: usize, given: &HeaderAnswer) -> [i32; 3] {
    let mut room = fresh_room(ROW * rows + 3);
    let mut parsed = room.clone();
    let told = blocks(capture, place, &mut room, given);
    assert_eq!(told, answer(capture, place, &mut parsed).numbers());
    assert_eq!(room, parsed);
    [told[0], told[1], told[2]]
}

#[test]
fn the_smallest_frame() {
    let (frame, own) = smallest();
    assert_eq!(told(&frame, 0, 200), own);
    assert_eq!(taken(&frame, 0, 200, &own), [0, 95, 204]);
}

#[test]
fn refusals_of_the_header() {
    let (frame, _) = smallest();
    let refusal = |capture: &[u8], place, rows, number, count, bit| {
        let own = told(capture, place, rows);
        assert_eq!(own, [number, count, bit, 0, -1, 0, 0, 0, 0, 0]);
        // Its own answer is a refusal.
        refused(capture, place, rows, &own);
    };
    refusal(&EXAMPLE[..5], 0, 9, 1, 0, 0);
    refusal(&frame, 123, 9, 1, 0, 0);
    refusal(&frame, usize::MAX, 9, 1, 0, 0);
    refusal(&frame, 1, 9, 2, 1, 16);
    refusal(&EXAMPLE, 0, 9, 3, 4, 40);
    refusal(&frame[..127], 0, 9, 4, 4, 40);
    let mut other = frame.clone();
    other[5] = 9 << 3;
    refusal(&other, 0, 9, 5, 5, 45);
    refusal(&frame, 0, 0, 7, 0, 0);
    refusal(&frame, 0, 4, 7, 4, 40);
    refusal(&frame, 0, 16, 7, 16, 64);
}

#[test]
fn room_for_the_header_alone() {
    let (frame, own) = smallest();
    assert_eq!(told(&frame, 0, 17), own);
    // The answer of another room that has the same ten numbers is taken.
    assert_eq!(taken(&frame, 0, 17, &own), [7, 17, 65]);
    assert_eq!(taken(&frame, 0, 18, &own), [7, 18, 66]);
    // That of a larger room is not where the header has no room itself, nor the other way round.
    refused(&frame, 0, 16, &own);
    refused(&frame, 0, 200, &told(&frame, 0, 16));
}

#[test]
fn one_number_changed() {
    let (frame, own) = smallest();
    for at in 0..HEADER_ANSWER {
        for value in [own[at] + 1, own[at] - 1, i32::MIN, i32::MAX, 24] {
            let mut given = own;
            given[at] = value;
            refused(&frame, 0, 200, &given);
        }
    }
    refused(&frame, 0, 200, &[0; HEADER_ANSWER]);
    refused(&frame, 0, 200, &[-1; HEADER_ANSWER]);
}

#[test]
fn of_another_input_and_place() {
    let (frame, own) = smallest();
    let other = small(&|a: &Asked| (a.name == "dialnorm").then_some(31));
    // Two frames whose headers answer the same: the ten numbers are all that is held against each other.
    let capture = [&frame[..], &other, &frame[..127]].concat();
    assert_eq!(told(&capture, 0, 200), own);
    assert_eq!(told(&capture, 128, 200), own);
    assert_eq!(taken(&capture, 128, 200, &own), [0, 95, 204]);
    refused(&capture, 256, 200, &own);
    refused(&capture, 127, 200, &own);
    refused(&capture, 0, 200, &told(&capture, 256, 200));
    let louder = small(&|a: &Asked| (a.name == "lfeon").then_some(1));
    refused(&louder, 0, 200, &own);
    refused(&frame, 0, 200, &told(&louder, 0, 200));
}

#[test]
fn refusals_of_the_blocks() {
    // cplstre 0 in block 0: the header is whole.
    let frame = small(&|a: &Asked| a.is("cplstre", 0).then_some(0));
    let own = told(&frame, 0, 200);
    assert_eq!(own, smallest().1);
    assert_eq!(taken(&frame, 0, 200, &own), [8, 21, 69]);
}

/// Of every header that the flags can make: the most rows and the most bits, and that the bits fit every frame.
#[test]
fn how_long_a_header_can_be() {
    let flags = [
        "compre",
        "langcode",
        "audprodie",
        "compr2e",
        "langcod2e",
        "audprodi2e",
        "addbsie",
    ];
    let (mut rows, mut longest, mut headers) = (0, 0, 0);
    for acmod in 0..8 {
        for (bsid, sent) in (0..9).flat_map(|bsid| (0..1 << 9).map(move |sent| (bsid, sent))) {
            let value = |a: &Asked| match a.name {
                "acmod" => Some(acmod),
                "bsid" => Some(bsid),
                "addbsil" => Some(63),
                "xbsi1e" | "timecod1e" => Some(sent >> 7 & 1),
                "xbsi2e" | "timecod2e" => Some(sent >> 8),
                name => {
                    let at = flags.iter().position(|flag| *flag == name)?;
                    Some(sent >> at & 1)
                }
            };
            let frame = header_alone(&value);
            let own = told(&frame, 0, MOST_ROWS as usize);
            assert_eq!(own[header_at::REFUSAL], 0);
            rows = rows.max(own[header_at::ROWS]);
            longest = longest.max(own[header_at::BIT]);
            headers += 1;
        }
    }
    assert_eq!((headers, rows, longest), (8 * 9 * 512, MOST_ROWS, LONGEST));
    assert!(longest < 8 * 128);
}

/// The smallest frame with these values in the header, and zeros after it.
fn header_alone(rule: &dyn Fn(&Asked) -> Option<u32>) -> Vec<u8> {
    // Refused at its first block, so that no more of it is made.
    small(&|a: &Asked| if a.is("cplstre", 0) { Some(0) } else { rule(a) })
}

/// The rows of a header end with addbsi, or with the flag that says there is none.
#[test]
fn a_header_ends_with_addbsi() {
    for (addbsie, name, width) in [(0, "addbsie", 1), (1, "addbsi", 512)] {
        let value = |a: &Asked| match a.name {
            "addbsie" => Some(addbsie),
            "addbsil" => Some(63),
            _ => None,
        };
        let frame = sized(0, 20, &value);
        let mut room = fresh_room(ROW * 60);
        let own = header(&frame, 0, &mut room);
        let last = &room[ROW * (own[header_at::ROWS] as usize - 1)..][..ROW];
        assert_eq!(last[row_at::NAME], number(name));
        assert_eq!(last[row_at::WIDTH], width);
        assert_eq!(own[header_at::BIT], last[row_at::POS] + width);
    }
}

/// The generator reaches all that it is to reach; a disagreement with what it knows beforehand would stop it.
#[test]
fn every_branch_is_reached() {
    let mut nothing = |_: &Case<'_>| {};
    let mut apart = Apart::new(1, &mut nothing);
    apart.run(1, Amounts::for_list(1));
    let [headers, blocks] = apart.calls;
    println!(
        "{headers} calls of header, {blocks} of blocks, {} goals",
        required().len()
    );
    assert_eq!(apart.missed(), Vec::<String>::new());
}

/// Implementations with one slip each. The generator's calls must tell each from the judge.
const SLIPS: [&str; 35] = [
    "refusal not compared",
    "rows not compared",
    "bit not compared",
    "name not compared",
    "block not compared",
    "bytes not compared",
    "bsid not compared",
    "acmod not compared",
    "lfeon not compared",
    "fscod not compared",
    "the sum compared",
    "the low byte compared",
    "the low 16 bits compared",
    "compared without signs",
    "given acmod of more than three bits taken",
    "an equal refusal told as itself",
    "a refusal of the header told as itself",
    "a given refusal told as itself",
    "the header read with ample room",
    "the header read at place 0",
    "the header read without the input's length",
    "the header's rows written before the comparison",
    "the header's rows told at 24",
    "the header's bit told at 24",
    "block 0 told at 24",
    "the header's rows left as they are",
    "the header's rows not counted",
    "the blocks begin at a row too many",
    "the header ends before addbsi",
    "the header reads the first block's first field",
    "bytes told at a refusal",
    "block 0 told of a header",
    "audio_end told as the header's bit",
    "5 told before 4",
    "words told as bytes",
];

/// The judge's `header` again, with a slip.
fn slipped_header(slip: &str, capture: &[u8], place: usize, room: &mut [i32]) -> HeaderAnswer {
    let is = |what: &str| slip == what;
    let before = room.to_vec();
    let mut told = header(capture, place, room);
    let data = capture.get(place..).unwrap_or(&[]);
    let rows = told[header_at::ROWS] as usize;
    let last = |at: usize| room[ROW * (rows - 1) + at];
    if told[header_at::REFUSAL] == 0 {
        if is("the header ends before addbsi") && last(row_at::NAME) == number("addbsi") {
            told[header_at::ROWS] -= 1;
            told[header_at::BIT] = last(row_at::POS);
            let written = ROW * rows;
            room[written - ROW..written].copy_from_slice(&before[written - ROW..written]);
        } else if is("the header reads the first block's first field") {
            let mut parsed = before.clone();
            answer(capture, place, &mut parsed);
            if ROW * (rows + 1) <= room.len() {
                let next = ROW * rows..ROW * (rows + 1);
                room[next.clone()].copy_from_slice(&parsed[next]);
                told[header_at::ROWS] += 1;
                told[header_at::BIT] += 1;
            }
        } else if is("audio_end told as the header's bit") {
            let mut ample = fresh_room(ROW * 5000);
            told[header_at::BIT] = answer(capture, place, &mut ample).bit as i32;
        } else if is("words told as bytes") {
            told[header_at::BYTES] /= 2;
        }
    } else if is("bytes told at a refusal") && told[header_at::REFUSAL] == 5 {
        told[header_at::BYTES] = 128;
    } else if is("5 told before 4") && told[header_at::REFUSAL] == 4 && data[5] >> 3 > 8 {
        told[header_at::REFUSAL] = 5;
    }
    if is("block 0 told of a header") {
        told[header_at::BLOCK] = 0;
    }
    told
}

/// The judge's `blocks` again, with a slip.
fn slipped_blocks(
    slip: &str,
    capture: &[u8],
    place: usize,
    room: &mut [i32],
    given: &HeaderAnswer,
) -> [i32; ANSWER] {
    let is = |what: &str| slip == what;
    let before = room.to_vec();
    let own = match slip {
        "the header read with ample room" => header(capture, place, &mut fresh_room(ROW * 50)),
        "the header read at place 0" => header(capture, 0, &mut before.clone()),
        "the header read without the input's length" => {
            let longer = [capture, &[0; 4000]].concat();
            header(&longer, place, &mut before.clone())
        }
        _ => header(capture, place, &mut before.clone()),
    };
    let places = [
        "refusal", "rows", "bit", "name", "block", "bytes", "bsid", "acmod", "lfeon", "fscod",
    ];
    let skipped = places
        .iter()
        .position(|place| slip == format!("{place} not compared"));
    let sum = |numbers: &HeaderAnswer| numbers.iter().map(|n| i64::from(*n)).sum::<i64>();
    let mut pairs = (0..).zip(own.iter().zip(given));
    let equal = match slip {
        "the sum compared" => sum(&own) == sum(given),
        "the low byte compared" => pairs.all(|(_, (a, b))| *a as u8 == *b as u8),
        "the low 16 bits compared" => pairs.all(|(_, (a, b))| *a as u16 == *b as u16),
        "compared without signs" => pairs.all(|(_, (a, b))| a.unsigned_abs() == b.unsigned_abs()),
        "given acmod of more than three bits taken" => {
            pairs.all(|(at, (a, b))| a == b || at == header_at::ACMOD && b & 7 == *a)
        }
        _ => pairs.all(|(at, (a, b))| a == b || Some(at) == skipped),
    };
    let own_refusal = own[header_at::REFUSAL];
    let refusal_among_given = given[header_at::REFUSAL] != 0 && skipped != Some(header_at::REFUSAL);
    let itself = match slip {
        "an equal refusal told as itself" if equal => own_refusal,
        "a refusal of the header told as itself" => own_refusal,
        "a given refusal told as itself" => given[header_at::REFUSAL],
        _ => 0,
    };
    if !equal || refusal_among_given || own_refusal != 0 {
        let mut told = [0; ANSWER];
        told[0] = if itself != 0 { itself } else { 24 };
        told[25] = if is("block 0 told at 24") { 0 } else { -1 };
        match slip {
            "the header's rows written before the comparison" => {
                header(capture, place, room);
            }
            "the header's rows told at 24" => told[1] = own[header_at::ROWS],
            "the header's bit told at 24" => told[2] = own[header_at::BIT],
            _ => {}
        }
        return told;
    }
    if is("the blocks begin at a row too many") {
        let data = capture.get(place..).unwrap_or(&[]);
        let mut cur = Cursor::new(Bytes(data), room);
        let Ok(header) = ac3::header(&mut cur) else {
            return answer(capture, place, &mut before.clone()).numbers();
        };
        cur.count += 1;
        let verdict = ac3::blocks(&mut cur, header);
        let (rows, bit) = (cur.count, cur.pos);
        return judge::cut::Answer { rows, bit, verdict }.numbers();
    }
    let mut told = answer(capture, place, room).numbers();
    let of_header = ROW * own[header_at::ROWS] as usize;
    if is("the header's rows left as they are") {
        room[..of_header].copy_from_slice(&before[..of_header]);
    }
    if is("the header's rows not counted") {
        told[1] -= own[header_at::ROWS];
    }
    told
}

#[test]
fn slips_are_noticed() {
    let mut noticed = vec![0usize; SLIPS.len()];
    let mut without = 0usize;
    let mut compare = |case: &Case<'_>| {
        let differs = |slip: &str| {
            let mut room = fresh_room(case.room.len());
            let (capture, place) = (case.capture, case.place);
            let same = match case.told {
                Told::Header(told) => slipped_header(slip, capture, place, &mut room) == told,
                Told::Blocks { given, answer } => {
                    slipped_blocks(slip, capture, place, &mut room, &given) == answer
                }
            };
            !same || room != case.room
        };
        without += usize::from(differs("none"));
        for (slip, times) in SLIPS.iter().zip(&mut noticed) {
            // Once is enough.
            if *times == 0 {
                *times += usize::from(differs(slip));
            }
        }
    };
    Apart::new(1, &mut compare).run(1, Amounts::for_list(0));
    assert_eq!(without, 0, "without a slip nothing differs");
    for (slip, times) in SLIPS.iter().zip(noticed) {
        assert!(times > 0, "{slip}");
    }
}
