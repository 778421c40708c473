//! The index: the cases to be tried by name, each with the answer that the description gives, written out; and slips that the generator's
//! calls must notice.

use judge::craft::{small, Asked};
use judge::cut::{answer, MANY_ROWS};
use judge::index::again::Runs;
use judge::index::cases::{Amounts, Case, Indexes};
use judge::index::index;
use judge::layout::{row_at, IndexAnswer, INDEXED, ROW};
use judge::names::number;

/// A frame of 128 bytes and 95 rows: one channel.
fn frame(dialnorm: u32) -> Vec<u8> {
    small(&|a: &Asked| (a.name == "dialnorm").then_some(dialnorm))
}

/// Two programmes, each with its level.
fn of_two(first: u32, second: u32) -> Vec<u8> {
    small(&|a: &Asked| match a.name {
        "acmod" => Some(0),
        "dialnorm" => Some(first),
        "dialnorm2" => Some(second),
        _ => None,
    })
}

/// What is told, and the index after the call: its entries, where nothing else may be touched.
fn called(capture: &[u8], rows: usize, length: usize, given: &[usize]) -> (usize, Vec<usize>) {
    let before = Runs::fresh(ROW * rows, length, given);
    let mut after = before.clone();
    let told = index(
        capture,
        &mut after.room,
        &mut after.index,
        given.len() / INDEXED,
    );
    let [refusal, entries] = told;
    let numbers = INDEXED * entries;
    assert_eq!(after.index[..given.len()], *given, "old entries stay");
    assert_eq!(after.index[numbers..], before.index[numbers..]);
    if refusal != 0 {
        assert_eq!(numbers, given.len(), "none is added");
    }
    (refusal, after.index[..numbers].to_vec())
}

/// With room for all.
fn made(capture: &[u8]) -> Vec<usize> {
    let (refusal, entries) = called(capture, MANY_ROWS, 100, &[]);
    assert_eq!(refusal, 0);
    entries
}

#[test]
fn place_length_acmod_and_levels() {
    let capture = [frame(27), frame(31), of_two(20, 25), of_two(0, 0)].concat();
    let entries = [
        [0, 128, 1, 27, 0],
        [128, 128, 1, 31, 0],
        [256, 128, 0, 20, 25],
        [384, 128, 0, 0, 0],
    ];
    assert_eq!(made(&capture), entries.concat());
}

#[test]
fn gaps_have_no_entry() {
    let capture = [&[7][..], &frame(1), &[8; 5], &frame(2), &[9; 300]].concat();
    let entries = [[1, 128, 1, 1, 0], [134, 128, 1, 2, 0]].concat();
    assert_eq!(made(&capture), entries);
    assert_eq!(made(&[]), []);
    assert_eq!(made(&[0; 500]), []);
}

/// A frame that lacks a byte is refused with 4, and the walk ends there, though a whole frame follows inside what it claims.
#[test]
fn it_ends_where_bytes_may_still_come() {
    let largest = judge::craft::sized(2, 37, &|_| None);
    let capture = [&frame(1)[..], &largest[..12], &frame(2), &frame(3)].concat();
    let first = [0, 128, 1, 1, 0];
    assert_eq!(made(&capture), first);
    // With bytes enough the place is accepted: nothing after the audio is looked at.
    let more = [&capture[..], &[0; 3840]].concat();
    let mut room = vec![0; ROW * MANY_ROWS];
    let at_128 = answer(&more, 128, &mut room).number();
    assert_ne!(at_128, 4);
    let (refusal, extended) = called(&more, MANY_ROWS, 100, &first);
    assert_eq!((refusal, &extended), (0, &made(&more)));
}

/// At every byte of a capture, the index of its beginning extended to the whole is the index of the whole.
#[test]
fn extended_at_every_byte() {
    let capture = [
        &frame(1)[..],
        &[0x0B],
        &frame(2),
        &[0x0B, 0x77, 3],
        &frame(3),
    ]
    .concat();
    let whole = made(&capture);
    assert_eq!(whole.len(), 3 * INDEXED);
    let mut grown = Vec::new();
    for end in 0..=capture.len() {
        let begun = made(&capture[..end]);
        let (refusal, extended) = called(&capture, MANY_ROWS, 100, &begun);
        assert_eq!((refusal, &extended), (0, &whole), "{end} bytes before");
        (_, grown) = called(&capture[..end], MANY_ROWS, 100, &grown);
        assert_eq!(grown, begun);
    }
}

#[test]
fn another_last_entry_is_56() {
    let capture = [of_two(20, 25), frame(2)].concat();
    let right = [0, 128, 0, 20, 25];
    assert_eq!(called(&capture, 200, 10, &right).0, 0);
    for at in 0..INDEXED {
        for other in [1, 26, 127, 129, 256, 1000, usize::MAX] {
            let mut wrong = right;
            wrong[at] = other;
            assert_eq!(called(&capture, 200, 10, &wrong).0, 56, "{wrong:?}");
        }
    }
    // Where parsing answers 7, too.
    let mut rows = vec![0; ROW * MANY_ROWS];
    let need = answer(&capture, 0, &mut rows).rows;
    assert_eq!(called(&capture, need, 10, &right).0, 0);
    assert_eq!(called(&capture, need - 1, 10, &right).0, 56);
}

#[test]
fn more_entries_than_the_room_holds_are_56() {
    let capture = frame(1);
    let numbers = [0, 128, 1, 1, 0, 0, 0, 0, 0];
    for length in 0..=9 {
        let mut lent = numbers[..length].to_vec();
        let mut room = vec![-5; ROW * 100];
        for entries in [length / INDEXED + 1, 2, 1 << 61, usize::MAX] {
            let told = index(&capture, &mut room, &mut lent, entries);
            assert_eq!(told, [56, entries]);
            assert_eq!(room, [-5; ROW * 100], "nothing is parsed");
        }
        assert_eq!(lent, numbers[..length]);
    }
}

/// The entries before the last are not looked at.
#[test]
fn earlier_entries_may_be_anything() {
    let capture = [frame(1), frame(2), frame(3)].concat();
    let given = [9, 9, 9, 9, 9, 128, 128, 1, 2, 0];
    let (refusal, entries) = called(&capture, 100, 15, &given);
    assert_eq!(refusal, 0);
    assert_eq!(entries, [&given[..], &[256, 128, 1, 3, 0]].concat());
}

/// 95 rows for a frame; two rows more than a place without a sync word takes, one less than a size that is none.
#[test]
fn rows_at_each_place() {
    let sync = [0x0B, 0x77, 0, 0, 0xC0, 0];
    let capture = [&[9][..], &frame(1), &sync, &frame(2)].concat();
    let entries = [[1, 128, 1, 1, 0], [135, 128, 1, 2, 0]].concat();
    assert_eq!(called(&capture, 95, 10, &[]), (0, entries));
    for rows in 0..95 {
        assert_eq!(called(&capture, rows, 10, &[]), (37, vec![]));
    }
    // The frame cut: the place where the walk ends takes four rows, and with fewer bytes than six none.
    assert_eq!(called(&frame(1)[..127], 4, 0, &[]), (0, vec![]));
    assert_eq!(called(&frame(1)[..127], 3, 0, &[]), (37, vec![]));
    assert_eq!(called(&frame(1)[..5], 0, 0, &[]), (0, vec![]));
}

#[test]
fn room_for_each_number_of_entries() {
    let capture = [frame(1), frame(2), frame(3)].concat();
    let all = made(&capture);
    for held in 0..=4 {
        for left_over in 0..INDEXED {
            for given in 0..=held.min(3) {
                let length = INDEXED * held + left_over;
                let given = &all[..INDEXED * given];
                let expected = match held {
                    0..3 => (55, given.to_vec()),
                    _ => (0, all.clone()),
                };
                assert_eq!(called(&capture, 95, length, given), expected);
            }
        }
    }
}

/// The order 56, 37, 55 holds for the whole call: the walk goes to its end.
#[test]
fn the_order_of_refusals() {
    let wide = judge::craft::sized(0, 10, &|a: &Asked| match a.name {
        "chbwcod" => Some(60),
        _ => None,
    });
    let mut rows = vec![0; ROW * MANY_ROWS];
    let need = answer(&wide, 0, &mut rows).rows;
    assert!(need > 95);
    let capture = [frame(1), frame(2), wide].concat();
    let first = [0, 128, 1, 1, 0];
    let other = [0, 128, 1, 2, 0];
    // The second frame has no room in the index, the third one no rows.
    assert_eq!(called(&capture, 95, 5, &first).0, 37);
    assert_eq!(called(&capture, need, 5, &first).0, 55);
    assert_eq!(called(&capture, need, 15, &first).0, 0);
    assert_eq!(called(&capture, 95, 5, &other).0, 56);
    assert_eq!(called(&capture, need, 5, &other).0, 56);
    assert_eq!(called(&capture, 95, 0, &[]).0, 37);
}

/// The numbers of the room are those of all parses, in order: at the last entry, then the walk, to its end even where 55 is given.
#[test]
fn the_room_after_a_call() {
    let sync = [0x0B, 0x77, 0, 0, 0xC0, 0];
    let capture = [&frame(1)[..], &sync, &frame(2), &[0x0B, 0x77, 0, 0, 0, 0]].concat();
    let first = [0, 128, 1, 1, 0];
    for (length, refusal) in [(5, 55), (10, 0)] {
        let mut room = vec![-5; ROW * 100];
        let mut expected = room.clone();
        let mut lent = vec![3; length];
        lent[..INDEXED].copy_from_slice(&first);
        let told = index(&capture, &mut room, &mut lent, 1);
        assert_eq!(told, [refusal, if refusal == 0 { 2 } else { 1 }]);
        // The first frame, six places without one, the second frame, the place that is refused with 4.
        for place in [0, 128, 129, 130, 131, 132, 133, 134, 262] {
            answer(&capture, place, &mut expected);
        }
        assert_eq!(room, expected);
    }
}

/// The generator reaches all that it is to reach; a disagreement with what it derives would stop it.
#[test]
fn every_goal_is_reached() {
    let mut nothing = |_: &Case<'_>| {};
    let mut indexes = Indexes::new(1, &mut nothing);
    indexes.run(Amounts::of_size(1));
    assert_eq!(indexes.reached.missed(), Vec::<String>::new());
}

/// Implementations with one slip each. The generator's calls must tell each from the judge.
const SLIPS: [&str; 36] = [
    "from the last frame's start",
    "from byte 0 whatever is given",
    "one byte after the last frame",
    "an entry for a frame refused with 4",
    "on after refusal 4",
    "ends at the first refusal",
    "ends where a frame is refused",
    "on by one byte after a frame",
    "on by two bytes where no frame is",
    "7 as any other refusal",
    "ends at 7",
    "second dialnorm in the first's place",
    "first dialnorm for an absent second",
    "second dialnorm left out",
    "acmod of the last frame",
    "length in words",
    "place from the end of the last frame",
    "length not held against the capture",
    "acmod not held against the capture",
    "dialnorm not held against the capture",
    "second dialnorm not held against the capture",
    "last entry not held against the capture",
    "first entry held against the capture",
    "every entry held against the capture",
    "37 for want of rows at the last entry",
    "55 for entries that the room does not hold",
    "55 before 37",
    "stops where no entry is left",
    "55 at just enough",
    "entries written before 55",
    "none told on a refusal",
    "the new ones told alone",
    "an entry in the left-over numbers",
    "last entry not parsed",
    "last entry parsed after the walk",
    "room of its own for each place",
];

/// The judge's answer again, with a slip.
fn slipped(slip: &str, capture: &[u8], runs: &mut Runs, entries: usize) -> IndexAnswer {
    let is = |this: &str| slip == this;
    let Runs { room, index } = runs;
    let given = if is("none told on a refusal") {
        0
    } else {
        entries
    };
    let held = match slip {
        "an entry in the left-over numbers" => index.len().div_ceil(INDEXED),
        _ => index.len() / INDEXED,
    };
    if entries > held {
        let refusal = match slip {
            "55 for entries that the room does not hold" => 55,
            _ => 56,
        };
        return [refusal, given];
    }
    let mut own = room.clone();
    let mut before = 1; // acmod of the frame before
    let mut parsed = |place: usize, room: &mut Vec<i32>| -> Result<[usize; INDEXED], u32> {
        let told = match slip {
            "room of its own for each place" => answer(capture, place, &mut own),
            _ => answer(capture, place, room),
        };
        let rows = if is("room of its own for each place") {
            &own
        } else {
            &*room
        };
        let value = |name: &str| {
            let mut rows = rows[..ROW * told.rows].chunks(ROW);
            let row = rows.find(|r| r[row_at::NAME] == number(name));
            row.map(|row| row[row_at::VALUE] as usize)
        };
        let summary = told.verdict.map_err(|no| no.number)?;
        let (first, second) = (value("dialnorm").unwrap(), value("dialnorm2"));
        let acmod = usize::from(summary.acmod);
        let mut entry = [place, summary.bytes, acmod, first, second.unwrap_or(0)];
        match slip {
            "second dialnorm in the first's place" => entry[3] = second.unwrap_or(first),
            "first dialnorm for an absent second" => entry[4] = second.unwrap_or(first),
            "second dialnorm left out" => entry[4] = 0,
            "acmod of the last frame" => entry[2] = before,
            "length in words" => entry[1] /= 2,
            _ => {}
        }
        before = acmod;
        Ok(entry)
    };
    let mut place = 0;
    let last_of = |entries: usize| INDEXED * (entries - 1)..INDEXED * entries;
    let mut late = None;
    if entries > 0 && !is("from byte 0 whatever is given") {
        let last = index[last_of(entries)].to_vec();
        let looked_at: Vec<usize> = match slip {
            "first entry held against the capture" => vec![1],
            "every entry held against the capture" => (1..=entries).collect(),
            "last entry not parsed" | "last entry parsed after the walk" => vec![],
            _ => vec![entries],
        };
        if is("last entry parsed after the walk") {
            late = Some(last.clone());
        }
        for at in looked_at {
            let entry = &index[last_of(at)];
            let same = match parsed(entry[0], room) {
                Err(7) if is("37 for want of rows at the last entry") => return [37, given],
                Err(_) => is("last entry not held against the capture"),
                Ok(own) => (0..INDEXED).all(|n| {
                    let blind = match n {
                        1 => is("length not held against the capture"),
                        2 => is("acmod not held against the capture"),
                        3 => is("dialnorm not held against the capture"),
                        4 => is("second dialnorm not held against the capture"),
                        _ => false,
                    };
                    blind || own[n] == entry[n] || is("last entry not held against the capture")
                }),
            };
            if !same {
                return [56, given];
            }
        }
        place = match slip {
            "from the last frame's start" => last[0],
            "one byte after the last frame" => last[0].wrapping_add(last[1]).wrapping_add(1),
            _ => last[0].wrapping_add(last[1]),
        };
    }
    let mut met: Vec<[usize; INDEXED]> = Vec::new();
    let mut end = place;
    while place < capture.len() {
        match parsed(place, room) {
            Ok(mut entry) => {
                let length = match slip {
                    "length in words" => 2 * entry[1],
                    _ => entry[1],
                };
                if is("place from the end of the last frame") {
                    entry[0] = place - end;
                }
                let full = entries + met.len() >= held;
                if full && (is("55 before 37") || is("stops where no entry is left")) {
                    return [55, given];
                }
                met.push(entry);
                end = place + length;
                place = match slip {
                    "on by one byte after a frame" => place + 1,
                    _ => end,
                };
            }
            Err(7) if is("7 as any other refusal") => place += 1,
            Err(7) if is("ends at 7") => break,
            Err(7) => return [37, given],
            Err(4) if is("an entry for a frame refused with 4") => {
                let code = usize::from(capture[place + 4]);
                let words = judge::tables::ac3_frame_words(code >> 6, code & 63).unwrap();
                met.push([place, 2 * words, 0, 0, 0]);
                break;
            }
            Err(4) if is("on after refusal 4") => place += 1,
            Err(1 | 4) => break,
            Err(_) if is("ends at the first refusal") => break,
            Err(n) if is("ends where a frame is refused") && n > 4 => break,
            Err(_) if is("on by two bytes where no frame is") => place += 2,
            Err(_) => place += 1,
        }
    }
    if let Some(last) = late {
        if parsed(last[0], room).map_or(true, |entry| entry[..] != last[..]) {
            return [56, given];
        }
    }
    let spare = usize::from(is("55 at just enough") && !met.is_empty());
    let numbers = met.concat();
    let at = INDEXED * entries;
    if entries + met.len() + spare > held {
        if is("entries written before 55") {
            let fit = index.len() / INDEXED * INDEXED - at;
            index[at..at + fit.min(numbers.len())]
                .copy_from_slice(&numbers[..fit.min(numbers.len())]);
        }
        return [55, given];
    }
    let fit = numbers.len().min(index.len() - at);
    index[at..at + fit].copy_from_slice(&numbers[..fit]);
    match slip {
        "the new ones told alone" => [0, met.len()],
        _ => [0, entries + met.len()],
    }
}

#[test]
fn each_slip_is_noticed() {
    let mut noticed = [0; SLIPS.len()];
    let mut calls = 0;
    let mut compare = |case: &Case<'_>| {
        // Slips may count entries, and take places, that the judge never does.
        if case.entries > 1 << 40 {
            return;
        }
        calls += 1;
        let mut plain = case.before.clone();
        let told = slipped("", case.capture, &mut plain, case.entries);
        assert_eq!(told, case.answer, "without a slip");
        assert_eq!(plain, *case.after, "without a slip");
        for (slip, noticed) in SLIPS.iter().zip(&mut noticed) {
            // Once is enough.
            if *noticed == 0 {
                let mut runs = case.before.clone();
                let told = slipped(slip, case.capture, &mut runs, case.entries);
                *noticed += usize::from(told != case.answer || runs != *case.after);
            }
        }
    };
    let mut indexes = Indexes::new(1, &mut compare);
    indexes.run(Amounts::of_size(1));
    for (slip, times) in SLIPS.iter().zip(noticed) {
        assert!(times > 0, "not noticed in {calls} calls: {slip}");
    }
}
