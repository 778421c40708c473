//! Salvage: the cases to be tried by name, each with the answer that the description gives, written out; and slips that the generator's
//! captures must notice.

use judge::craft::{small, Asked};
use judge::cut::{answer, MANY_ROWS};
use judge::layout::{SalvageAnswer, ENTRY, ROW};
use judge::salvage::again::{Lent, Runs};
use judge::salvage::cases::{Amounts, Case, Salvages};
use judge::salvage::salvage;

const FRAME: usize = 0;
const GAP: usize = 1;

/// A frame of 128 bytes and 95 rows.
fn frame(dialnorm: u32) -> Vec<u8> {
    small(&|a: &Asked| (a.name == "dialnorm").then_some(dialnorm))
}

/// What is told, listed and written; behind the entries and bytes that are told nothing may be touched.
fn salvaged(
    capture: &[u8],
    numbers: usize,
    list: usize,
    bytes: usize,
) -> (SalvageAnswer, Vec<usize>, Vec<u8>) {
    let lent = Lent {
        numbers,
        list,
        bytes,
    };
    let (before, mut after) = (Runs::fresh(lent), Runs::fresh(lent));
    let Runs { room, list, out } = &mut after;
    let told = salvage(capture, room, list, out);
    let [_, entries, written] = told;
    assert_eq!(
        after.list[ENTRY * entries..],
        before.list[ENTRY * entries..]
    );
    assert_eq!(after.out[written..], before.out[written..]);
    after.list.truncate(ENTRY * entries);
    after.out.truncate(written);
    (told, after.list, after.out)
}

/// With room for all.
fn amply(capture: &[u8]) -> (Vec<usize>, Vec<u8>) {
    let (told, list, out) = salvaged(capture, ROW * MANY_ROWS, 60, capture.len());
    assert_eq!(told, [0, list.len() / ENTRY, out.len()]);
    (list, out)
}

#[test]
fn a_capture_without_a_gap_comes_out_the_same() {
    let capture = [frame(1), frame(2), frame(3)].concat();
    let list = vec![FRAME, 0, 128, FRAME, 128, 128, FRAME, 256, 128];
    assert_eq!(amply(&capture), (list, capture));
}

#[test]
fn gaps_before_between_and_after_frames() {
    let capture = [&[7][..], &frame(1), &[8; 5], &frame(2), &[9; 300]].concat();
    let list = [
        [GAP, 0, 1],
        [FRAME, 1, 128],
        [GAP, 129, 5],
        [FRAME, 134, 128],
        [GAP, 262, 300],
    ];
    let out = [frame(1), frame(2)].concat();
    assert_eq!(amply(&capture), (list.concat(), out));
}

#[test]
fn captures_without_frames() {
    assert_eq!(amply(&[]), (vec![], vec![]));
    assert_eq!(amply(&[0x0B]), (vec![GAP, 0, 1], vec![]));
    assert_eq!(amply(&[0x0B, 0x77, 0, 0, 0]), (vec![GAP, 0, 5], vec![]));
    assert_eq!(amply(&[0x0B; 900]), (vec![GAP, 0, 900], vec![]));
    let all = [0x0B, 0x77].repeat(500);
    assert_eq!(amply(&all), (vec![GAP, 0, 1000], vec![]));
}

/// An empty capture needs no room at all.
#[test]
fn nothing_in_no_room() {
    assert_eq!(salvaged(&[], 0, 0, 0).0, [0, 0, 0]);
    assert_eq!(salvaged(&[1], 0, 0, 0).0, [36, 0, 0]);
    // Five bytes are refused with 1, which asks for no row.
    assert_eq!(salvaged(&[1; 5], 0, 3, 0).0, [0, 1, 0]);
    assert_eq!(salvaged(&[1; 6], 0, 3, 0).0, [37, 0, 0]);
}

#[test]
fn false_sync_words_and_cut_frames_are_one_gap() {
    let cut = &frame(1)[..12];
    let capture = [&[0x0B, 0x77, 0x0B][..], cut, &[0x0B, 0x77], &frame(2)].concat();
    let list = [[GAP, 0, 17], [FRAME, 17, 128]].concat();
    assert_eq!(amply(&capture), (list, frame(2)));
    // A frame that lacks its last byte, at the end.
    let capture = [&frame(1)[..], &frame(2)[..127]].concat();
    let list = [[FRAME, 0, 128], [GAP, 128, 127]].concat();
    assert_eq!(amply(&capture), (list, frame(1)));
}

/// The bytes of a cut frame and of the next one may be a frame together: the walk takes what parsing accepts.
#[test]
fn a_cut_frame_may_take_the_beginning_of_the_next() {
    // After bit 204 (the end of the audio) nothing is looked at.
    let capture = [&frame(1)[..100], &frame(2), &frame(3)].concat();
    let first = capture[..128].to_vec();
    let list = [[FRAME, 0, 128], [GAP, 128, 100], [FRAME, 228, 128]].concat();
    assert_eq!(amply(&capture), (list, [first, frame(3)].concat()));
}

/// The inner frame of a frame is not met; where the outer one is refused it is.
#[test]
fn a_frame_inside_a_frame() {
    let mut outer = judge::craft::sized(0, 10, &|a: &Asked| match (a.name, a.block) {
        ("skiple", 5) => Some(1),
        ("skipl", 5) => Some(130),
        _ => None,
    });
    let length = outer.len();
    let mut room = vec![0; ROW * MANY_ROWS];
    let told = answer(&outer, 0, &mut room);
    let bit = told.verdict.unwrap().audio_end - 8 * 130;
    let place = bit.div_ceil(8);
    outer[place..place + 128].copy_from_slice(&frame(3));
    assert_eq!(amply(&outer), (vec![FRAME, 0, length], outer.clone()));
    outer[1] = 0x78;
    let list = [
        [GAP, 0, place],
        [FRAME, place, 128],
        [GAP, place + 128, length - place - 128],
    ];
    assert_eq!(amply(&outer), (list.concat(), frame(3)));
}

/// A frame, a gap of two bytes, a frame, a frame, a gap of one byte: every room from nothing to more than enough.
#[test]
fn every_room() {
    let capture = [&frame(1)[..], &[5, 5], &frame(2), &frame(3), &[6]].concat();
    let list = [
        [FRAME, 0, 128],
        [GAP, 128, 2],
        [FRAME, 130, 128],
        [FRAME, 258, 128],
        [GAP, 386, 1],
    ];
    let out = [frame(1), frame(2), frame(3)].concat();
    let rows = ROW * 95;
    let check = |numbers, numbers_of_list, bytes, expected: SalvageAnswer| {
        let (told, listed, written) = salvaged(&capture, numbers, numbers_of_list, bytes);
        assert_eq!(told, expected, "{numbers} {numbers_of_list} {bytes}");
        assert_eq!(listed, list[..expected[1]].concat());
        assert_eq!(written, out[..expected[2]]);
    };
    for numbers in [rows, rows + 8, 2 * rows] {
        check(numbers, 15, 384, [0, 5, 384]);
    }
    check(rows - 1, 15, 384, [37, 0, 0]);
    check(0, 15, 384, [37, 0, 0]);
    for (numbers_of_list, expected) in [
        (0, [36, 0, 0]),
        (2, [36, 0, 0]),
        (3, [36, 1, 128]),
        (5, [36, 1, 128]),
        (6, [36, 2, 128]),
        (8, [36, 2, 128]),
        (9, [36, 3, 256]),
        (12, [36, 4, 384]),
        (14, [36, 4, 384]),
        (15, [0, 5, 384]),
        (17, [0, 5, 384]),
        (18, [0, 5, 384]),
    ] {
        check(rows, numbers_of_list, 384, expected);
    }
    for (bytes, expected) in [
        (0, [35, 0, 0]),
        (127, [35, 0, 0]),
        // The gap before the frame is entered.
        (128, [35, 2, 128]),
        (255, [35, 2, 128]),
        (256, [35, 3, 256]),
        (383, [35, 3, 256]),
        (384, [0, 5, 384]),
        (385, [0, 5, 384]),
    ] {
        check(rows, 15, bytes, expected);
    }
}

#[test]
fn the_order_at_one_frame() {
    // A gap before the frame: its entry, then the rows, then the frame's entry, then the output.
    let capture = [&[5][..], &frame(1)].concat();
    let told = |numbers, list, bytes| salvaged(&capture, numbers, list, bytes).0;
    // (With no row at all byte 0 would stop the walk.)
    let (few, enough) = (ROW * 94, ROW * 95);
    assert_eq!(told(few, 2, 127), [36, 0, 0]);
    assert_eq!(told(few, 3, 127), [37, 1, 0]);
    assert_eq!(told(few, 6, 127), [37, 1, 0]);
    assert_eq!(told(enough, 3, 127), [36, 1, 0]);
    assert_eq!(told(enough, 6, 127), [35, 1, 0]);
    assert_eq!(told(enough, 6, 128), [0, 2, 128]);
    // Without one.
    let capture = frame(1);
    let told = |numbers, list, bytes| salvaged(&capture, numbers, list, bytes).0;
    assert_eq!(told(few, 2, 127), [37, 0, 0]);
    assert_eq!(told(enough, 2, 127), [36, 0, 0]);
    assert_eq!(told(enough, 3, 127), [35, 0, 0]);
    assert_eq!(told(enough, 3, 128), [0, 1, 128]);
}

/// A place where parsing answers 7 stops the walk though no frame is there.
#[test]
fn no_row_for_a_place_that_is_no_frame() {
    // A false sync word, with a code that has no size, asks for four rows.
    let capture = [&[1, 2, 0x0B, 0x77, 0, 0, 0xC0, 0][..], &frame(1)].concat();
    assert_eq!(salvaged(&capture, ROW * 3, 9, 200).0, [37, 1, 0]);
    assert_eq!(salvaged(&capture, ROW * 3, 9, 200).1, [GAP, 0, 2]);
    assert_eq!(salvaged(&capture, ROW * 3, 2, 200).0, [36, 0, 0]);
    assert_eq!(salvaged(&capture, ROW * 95, 9, 200).1[..3], [GAP, 0, 8]);
}

/// The numbers of the room are those of all parses, in order: the last row that a later place does not write is an earlier place's.
#[test]
fn the_room_after_a_walk() {
    let capture = [&frame(1)[..], &[0x0B, 0x77, 0, 0, 0xC0, 0], &[1, 2]].concat();
    let mut room = vec![-5; ROW * 100];
    let mut expected = room.clone();
    let mut list = [0; 6];
    assert_eq!(
        salvage(&capture, &mut room, &mut list, &mut [0; 128]),
        [0, 2, 128]
    );
    for place in [0, 128, 129, 130] {
        answer(&capture, place, &mut expected);
    }
    assert_eq!(room, expected);
    // Row 0 is that of byte 130, the last place with six bytes; rows 1 to 3 are the false sync word's; the others the frame's.
    assert_eq!(room[..ROW], [1, 1, -1, -1, -1, 0, 16, 0, -1]);
    assert_eq!(room[2 * ROW..3 * ROW], [3, 5, -1, -1, -1, 32, 2, 3, -1]);
    assert_eq!(room[4 * ROW..5 * ROW], [5, 0, -1, -1, -1, 40, 5, 8, -1]);
    assert_eq!(room[95 * ROW..], [-5; 5 * ROW]);
}

/// The generator reaches all that it is to reach; a disagreement with what it derives would stop it.
#[test]
fn every_goal_is_reached() {
    let mut nothing = |_: &Case<'_>| {};
    let mut salvages = Salvages::new(1, &mut nothing);
    salvages.run(Amounts::of_size(1));
    assert_eq!(salvages.reached.missed(), Vec::<String>::new());
}

/// Implementations with one slip each. The generator's calls must tell each from the judge.
const SLIPS: [&str; 31] = [
    "on after a frame one byte early",
    "on after a frame one byte late",
    "on after a refused frame by its length",
    "on by two bytes where no frame is",
    "from byte 1 on",
    "gaps end at each refused sync word",
    "a gap for each byte",
    "last gap left out",
    "gap of no bytes before each frame",
    "gap entered after the frame's checks",
    "37 before the gap is entered",
    "36 before 37",
    "35 before 36",
    "frame listed before it is written",
    "frame copied in part at 35",
    "35 at just enough",
    "36 at just enough",
    "an entry of two numbers",
    "kinds exchanged",
    "places from the last frame",
    "place of the output listed",
    "gap's length to the frame's end",
    "7 as any other refusal",
    "7 at a refused place alone goes on",
    "37 at byte 0 of a short capture too",
    "stops at refusal 4",
    "no parse without a sync word",
    "rows of frames alone",
    "room of its own for each place",
    "last six bytes not looked at",
    "output begins anew at each frame",
];

/// The judge's answer again, with a slip.
fn slipped(slip: &str, capture: &[u8], runs: &mut Runs) -> SalvageAnswer {
    let is = |this: &str| slip == this;
    let Runs { room, list, out } = runs;
    let (mut entries, mut bytes) = (0, 0);
    let (mut place, mut first) = (usize::from(is("from byte 1 on")), 0);
    let width = if is("an entry of two numbers") { 2 } else { 3 };
    let spare = width * usize::from(is("36 at just enough"));
    macro_rules! enter {
        ($kind:expr, $place:expr, $length:expr) => {{
            if list.len() < width * (entries + 1) + spare {
                return [36, entries, bytes];
            }
            let kind = if is("kinds exchanged") {
                1 - $kind
            } else {
                $kind
            };
            list[width * entries..width * (entries + 1)]
                .copy_from_slice(&[kind, $place, $length][..width]);
            entries += 1;
        }};
    }
    macro_rules! gap {
        ($end:expr) => {{
            let end: usize = $end;
            if end > first || is("gap of no bytes before each frame") && end < capture.len() {
                enter!(GAP, first, end - first);
            }
        }};
    }
    let end = match slip {
        "last six bytes not looked at" => capture.len().saturating_sub(6),
        _ => capture.len(),
    };
    while place < end {
        let sync = capture[place..].starts_with(&[0x0B, 0x77]);
        let skipped = is("no parse without a sync word") && !sync;
        let verdict = if skipped {
            Err(2)
        } else if is("rows of frames alone") || is("room of its own for each place") {
            let mut own = room.clone();
            let parsed = answer(capture, place, &mut own);
            let number = parsed.number();
            if is("rows of frames alone") && number == 0 {
                *room = own;
            }
            parsed.verdict.map_err(|no| no.number)
        } else {
            answer(capture, place, room).verdict.map_err(|no| no.number)
        };
        let length = match verdict {
            Ok(summary) => summary.bytes,
            Err(7) if is("7 as any other refusal") => {
                place += 1;
                continue;
            }
            Err(7) if is("7 at a refused place alone goes on") && !sync => {
                place += 1;
                continue;
            }
            Err(7) => {
                if !is("37 before the gap is entered") {
                    gap!(place);
                }
                if is("36 before 37") && list.len() < 3 * (entries + 1) {
                    return [36, entries, bytes];
                }
                return [37, entries, bytes];
            }
            Err(4) if is("stops at refusal 4") => break,
            Err(1) if is("37 at byte 0 of a short capture too") && room.is_empty() => {
                gap!(place);
                return [37, entries, bytes];
            }
            Err(number) => {
                let mut step = 1;
                if is("on by two bytes where no frame is") {
                    step = 2;
                }
                if is("on after a refused frame by its length") && number > 4 {
                    let code = usize::from(capture[place + 4]);
                    step = 2 * judge::tables::ac3_frame_words(code >> 6, code & 63).unwrap();
                }
                let ends = is("gaps end at each refused sync word") && number > 2;
                if is("a gap for each byte") || ends && place > first {
                    gap!(place + usize::from(!ends));
                    first = place + usize::from(!ends);
                }
                place = (place + step).min(capture.len());
                continue;
            }
        };
        let frame = &capture[place..place + length];
        let late = is("gap entered after the frame's checks");
        if !late {
            if is("gap's length to the frame's end") && place > first {
                enter!(GAP, first, place + length - first);
            } else {
                gap!(place);
            }
        }
        let no_entry = list.len() < width * (entries + 1) + spare;
        let need = bytes + length + usize::from(is("35 at just enough"));
        let no_output = out.len() < need;
        if is("35 before 36") && no_output {
            return [35, entries, bytes];
        }
        if no_entry {
            return [36, entries, bytes];
        }
        if no_output {
            if is("frame listed before it is written") {
                enter!(FRAME, place, length);
            }
            if is("frame copied in part at 35") {
                let rest = &mut out[bytes..];
                let part = rest.len().min(length);
                rest[..part].copy_from_slice(&frame[..part]);
            }
            return [35, entries, bytes];
        }
        if late {
            gap!(place);
        }
        let to = if is("output begins anew at each frame") {
            0
        } else {
            bytes
        };
        out[to..to + length].copy_from_slice(frame);
        let listed = match slip {
            "places from the last frame" => place - first,
            "place of the output listed" => bytes,
            _ => place,
        };
        bytes += length;
        enter!(FRAME, listed, length);
        place = match slip {
            "on after a frame one byte early" => place + length - 1,
            "on after a frame one byte late" => (place + length + 1).min(capture.len()),
            _ => place + length,
        };
        first = place;
    }
    if !is("last gap left out") && first < capture.len() {
        gap!(capture.len());
    }
    [0, entries, bytes]
}

#[test]
fn slips_are_noticed() {
    let mut noticed = vec![0usize; SLIPS.len()];
    let mut without = 0usize;
    let mut compare = |case: &Case<'_>| {
        let differs = |slip: &str| {
            let mut runs = Runs::fresh(case.runs.lent());
            let told = slipped(slip, case.capture, &mut runs);
            told != case.answer || runs != *case.runs
        };
        without += usize::from(differs("none"));
        for (slip, times) in SLIPS.iter().zip(&mut noticed) {
            // Once is enough.
            if *times == 0 {
                *times += usize::from(differs(slip));
            }
        }
    };
    Salvages::new(1, &mut compare).run(Amounts::of_size(0));
    assert_eq!(without, 0, "without a slip nothing differs");
    for (slip, times) in SLIPS.iter().zip(noticed) {
        assert!(times > 0, "{slip}");
    }
}
