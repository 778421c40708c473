//! Level correction: the cases to be tried by name, each with the answer that its description gives, written out; that exactly one crc1
//! fits; and slips that the generator's calls must notice.

use judge::agree::fresh_room;
use judge::bits;
use judge::cases::Amounts;
use judge::craft::{small, Asked};
use judge::cut::{answer, MANY_ROWS};
use judge::layout::{row_at, Changes, LevelAnswer, CHANGE, ROW};
use judge::level::cases::{fresh_changes, Case, Levels};
use judge::level::{correct, crc1, five_eighths, on, register, CRC2, CRCRSV, SYNC};
use judge::names::number;

/// A correction with ample room: refusal, and the changes listed.
fn corrected(frame: &mut [u8], programme: usize, level: usize) -> (i32, Vec<i32>) {
    let (mut room, mut changes) = (fresh_room(ROW * MANY_ROWS), fresh_changes());
    let [refusal, _, count] = correct(frame, 0, programme, level, &mut room, &mut changes);
    let listed = CHANGE * count as usize;
    assert_eq!(changes[listed..], fresh_changes()[listed..]);
    (refusal, changes[..listed].to_vec())
}

/// The smallest frame, of 128 bytes, with an acmod and dialnorm 27.
fn frame(acmod: u32) -> Vec<u8> {
    small(&|asked: &Asked| match asked.name {
        "acmod" => Some(acmod),
        "dialnorm" => Some(27),
        _ => None,
    })
}

#[test]
fn a_level_and_both_checksums() {
    let mut once = frame(1);
    let (refusal, changes) = corrected(&mut once, 1, 24);
    assert_eq!(refusal, 0);
    let first = bits::get(&once, 16, 16) as i32;
    // Nothing stands behind five eighths: the register stays zero, and so does crc2.
    assert_eq!(
        changes,
        [number("crc1"), 0, first, number("dialnorm"), 27, 24]
    );
    assert_eq!(bits::get(&once, 52, 5), 24);
    assert_eq!(five_eighths(128), 640);
    assert_eq!(judge::crc::crc16(0, &once[2..80]), 0);
    assert_eq!(judge::crc::crc16(0, &once[2..]), 0);
    let mut twice = once.clone();
    assert_eq!(corrected(&mut twice, 1, 24), (0, vec![]));
    assert_eq!(twice, once);
    // A bit behind them: crc2 alone is to be mended.
    let mut damaged = once.clone();
    damaged[100] ^= 1;
    let (_, changes) = corrected(&mut damaged, 1, 24);
    let second = bits::get(&damaged, 1008, 16) as i32;
    assert_eq!(changes, [CRC2, 0, second]);
}

#[test]
fn programmes_are_counted_from_one() {
    for (acmod, programme, refusal) in [
        (1, 0, 50),
        (1, 1, 0),
        (1, 2, 50),
        (0, 0, 50),
        (0, 1, 0),
        (0, 2, 0),
        (0, 3, 50),
        (0, usize::MAX, 50),
    ] {
        let mut frame = frame(acmod);
        let untouched = frame.clone();
        let (told, changes) = corrected(&mut frame, programme, 7);
        assert_eq!(told, refusal, "programme {programme} of acmod {acmod}");
        if refusal > 0 {
            assert_eq!(frame, untouched);
            continue;
        }
        let name = ["dialnorm", "dialnorm2"][programme - 1];
        let old = if programme == 1 { 27 } else { 0 };
        assert_eq!(changes[CHANGE..2 * CHANGE], [number(name), old, 7]);
    }
}

#[test]
fn levels_from_1_to_31() {
    for (level, refusal) in [(0, 51), (1, 0), (31, 0), (32, 51), (usize::MAX, 51)] {
        let mut frame = frame(1);
        assert_eq!(corrected(&mut frame, 1, level).0, refusal, "{level}");
    }
    // The programme is looked at first.
    assert_eq!(corrected(&mut frame(1), 2, 0).0, 50);
}

#[test]
fn crcrsv_keeps_crc2_from_being_the_sync_word() {
    for crcrsv in 0..2 {
        let mut frame = frame(1);
        bits::set(&mut frame, 1007, 1, crcrsv);
        // Some word in the last bits before auxdatae gives it.
        let word = (0..65_536).find(|word| {
            bits::set(&mut frame, 990, 16, *word);
            let before = register(&frame, 640, 1008);
            (0..16).fold(before, |r, _| on(r, 0)) == SYNC
        });
        assert!(word.is_some());
        let (_, changes) = corrected(&mut frame, 1, 24);
        let old = crcrsv as i32;
        let listed = [CRCRSV, old, 1 - old, CRC2, 0, 0x8B72];
        assert_eq!(changes[2 * CHANGE..], listed);
        assert_eq!(corrected(&mut frame, 1, 24), (0, vec![]));
    }
}

/// Of all words exactly one gives a register of zero, and it is the one that running back finds.
#[test]
fn exactly_one_crc1_fits() {
    for acmod in [0, 1, 2] {
        let mut frame = frame(acmod);
        bits::set(&mut frame, 600, 16, 0xACE1);
        let fits: Vec<u32> = (0..65_536)
            .filter(|word| {
                bits::set(&mut frame, 16, 16, *word);
                register(&frame, 16, 640) == 0
            })
            .collect();
        assert_eq!(fits, [crc1(&frame)]);
    }
}

/// The generator reaches all that it is to reach; a disagreement with what it knows beforehand would stop it.
#[test]
fn every_goal_is_reached() {
    let mut nothing = |_: &Case<'_>| {};
    let mut levels = Levels::new(1, &mut nothing);
    levels.run(1, 1, Amounts::of_size(0));
    assert_eq!(levels.missed(), Vec::<String>::new());
}

/// Implementations with one slip each. The generator's calls must tell each from the judge.
const SLIPS: [&str; 45] = [
    "crc1 over one word more",
    "crc1 over one word fewer",
    "five eighths of the words, rounded once",
    "five eighths of the bytes",
    "crc1 over the sync word, too",
    "crc2 over the last three eighths and the sync word",
    "the generator of CRC-CCITT",
    "the generator without x^2",
    "the least significant bit first",
    "crc2 before crc1",
    "crc1 before the level",
    "crc1 left as it was",
    "crc2 left as it was",
    "the flip left out",
    "the flip after crc2",
    "crcrsv set to 1",
    "crcrsv set to 0",
    "the bit before crcrsv flipped",
    "flipped where crc2 was the sync word",
    "flipped where crc2 comes out next to it",
    "programmes counted from zero",
    "programme 2 of every frame",
    "programme 0 taken",
    "programme 3 taken",
    "programmes of 32 bits",
    "programme 2 writes the first level",
    "level 0 taken",
    "level 31 refused",
    "level 32 taken as 0",
    "levels of eight bits",
    "17 bits behind the audio taken",
    "18 bits behind the audio refused",
    "51 before 50",
    "52 before 50",
    "52 before 51",
    "50 before the parse",
    "rows of a second parse",
    "dialnorm listed first",
    "unchanged fields listed",
    "new and old exchanged",
    "dialnorm2 listed as dialnorm",
    "crcrsv listed as 113",
    "numbers counted, not changes",
    "the list cleared",
    "the frame at byte 0",
];

/// The judge's answer again, with a slip.
fn slipped(
    slip: &str,
    capture: &mut [u8],
    place: usize,
    programme: usize,
    level: usize,
    room: &mut [i32],
    changes: &mut Changes,
) -> LevelAnswer {
    let is = |other: &str| slip == other;
    let programme = match slip {
        "programmes of 32 bits" => programme & 0xFFFF_FFFF,
        "programme 0 taken" if programme == 0 => 1,
        "programme 3 taken" if programme == 3 => 1,
        "programmes counted from zero" => programme.wrapping_add(1),
        _ => programme,
    };
    let level = if is("levels of eight bits") {
        level & 255
    } else {
        level
    };
    if is("50 before the parse") && !(1..=2).contains(&programme) {
        return [50, 0, 0];
    }
    if is("the list cleared") {
        changes.fill(0);
    }
    let parsed = answer(capture, place, room);
    let rows = parsed.rows as i32;
    let Ok(summary) = parsed.verdict.as_ref() else {
        return [parsed.number() as i32, rows, 0];
    };
    let find = |name: &str| {
        let mut each = room[..ROW * parsed.rows].chunks(ROW);
        each.find(|r| r[row_at::NAME] == number(name))
            .map(|r| r[row_at::POS] as usize)
    };
    let at = match programme {
        1 => find("dialnorm"),
        2 if is("programme 2 writes the first level") => find("dialnorm2").and(find("dialnorm")),
        2 if is("programme 2 of every frame") => find("dialnorm2").or(find("dialnorm")),
        2 => find("dialnorm2"),
        _ => None,
    };
    let wrong = match slip {
        "level 0 taken" => level > 31,
        "level 31 refused" => !(1..31).contains(&level),
        "level 32 taken as 0" => !(1..33).contains(&level),
        _ => !(1..32).contains(&level),
    };
    let tail = match slip {
        "17 bits behind the audio taken" => 17,
        "18 bits behind the audio refused" => 19,
        _ => 18,
    };
    let late = summary.audio_end + tail > 8 * summary.bytes;
    let mut checks = [(at.is_none(), 50), (wrong, 51), (late, 52)];
    match slip {
        "51 before 50" => checks.swap(0, 1),
        "52 before 50" => checks.rotate_right(1),
        "52 before 51" => checks.swap(1, 2),
        _ => {}
    }
    if let Some((_, refusal)) = checks.iter().find(|(holds, _)| *holds) {
        return [*refusal, rows, 0];
    }
    let at = at.expect("a programme");
    let place = if is("the frame at byte 0") { 0 } else { place };
    let frame = &mut capture[place..][..summary.bytes];
    let end = 8 * frame.len();
    let name = match programme {
        2 if !is("dialnorm2 listed as dialnorm") => "dialnorm2",
        _ => "dialnorm",
    };
    let rsv = if is("crcrsv listed as 113") {
        CRC2
    } else {
        CRCRSV
    };
    let fields = [
        (number("crc1"), 16, 16),
        (number(name), at, 5),
        (rsv, end - 17, 1),
        (CRC2, end - 16, 16),
    ];
    let values = |frame: &[u8]| fields.map(|(_, at, width)| bits::get(frame, at, width) as i32);
    let old = values(frame);
    if !is("crc1 before the level") {
        bits::set(frame, at, 5, level as u32 & 31);
    }
    if is("crc2 before crc1") {
        let second = with_zero(slip, frame, 16, end, end - 16);
        bits::set(frame, end - 16, 16, second);
    }
    let words = frame.len() / 2;
    let five = match slip {
        "crc1 over one word more" => five_eighths(frame.len()) + 16,
        "crc1 over one word fewer" => five_eighths(frame.len()) - 16,
        "five eighths of the words, rounded once" => 16 * (5 * words / 8),
        "five eighths of the bytes" => 8 * (5 * frame.len() / 8),
        _ => five_eighths(frame.len()),
    };
    if !is("crc1 left as it was") {
        let from = if is("crc1 over the sync word, too") {
            0
        } else {
            16
        };
        let first = solved(slip, frame, from, five);
        bits::set(frame, 16, 16, first);
    }
    if is("crc1 before the level") {
        bits::set(frame, at, 5, level as u32);
    }
    let would = with_zero(slip, frame, 16, end, end - 16);
    let crcrsv = bits::get(frame, end - 17, 1);
    let flips = match slip {
        "flipped where crc2 was the sync word" => old[3] as u32 == SYNC,
        "flipped where crc2 comes out next to it" => {
            would == SYNC || would == 0x8B72 && old[3] != 0x8B72
        }
        _ => would == SYNC,
    };
    match slip {
        _ if !flips => {}
        "the flip left out" | "the flip after crc2" => {}
        "crcrsv set to 1" => bits::set(frame, end - 17, 1, 1),
        "crcrsv set to 0" => bits::set(frame, end - 17, 1, 0),
        "the bit before crcrsv flipped" => {
            let bit = bits::get(frame, end - 18, 1);
            bits::set(frame, end - 18, 1, 1 - bit);
        }
        _ => bits::set(frame, end - 17, 1, 1 - crcrsv),
    }
    if !is("crc2 left as it was") && !is("crc2 before crc1") {
        let second = match slip {
            "crc2 over the last three eighths and the sync word" => {
                with_zero(slip, frame, 0, end, end - 16)
            }
            _ => with_zero(slip, frame, 16, end, end - 16),
        };
        bits::set(frame, end - 16, 16, second);
    }
    if is("the flip after crc2") && flips {
        bits::set(frame, end - 17, 1, 1 - crcrsv);
    }
    let new = values(frame);
    let mut order = [0, 1, 2, 3];
    if is("dialnorm listed first") {
        order = [1, 0, 2, 3];
    }
    let mut count = 0;
    for i in order {
        if old[i] != new[i] || is("unchanged fields listed") {
            let (mut from, mut to) = (old[i], new[i]);
            if is("new and old exchanged") {
                (from, to) = (to, from);
            }
            changes[CHANGE * count..][..CHANGE].copy_from_slice(&[fields[i].0, from, to]);
            count += 1;
        }
    }
    if is("rows of a second parse") {
        answer(capture, place, room);
    }
    let factor = if is("numbers counted, not changes") {
        CHANGE
    } else {
        1
    };
    [0, rows, (factor * count) as i32]
}

/// The register over these bits, from zero, by the generator and in the order of a slip.
fn ran(slip: &str, frame: &[u8], from: usize, to: usize) -> u32 {
    let generator = match slip {
        "the generator of CRC-CCITT" => 0x1_1021,
        "the generator without x^2" => 0x1_8001,
        _ => 0x1_8005,
    };
    (from..to).fold(0, |register, at| {
        let at = match slip {
            "the least significant bit first" => at / 8 * 8 + 7 - at % 8,
            _ => at,
        };
        let longer = register << 1 | bits::get(frame, at, 1);
        if longer >> 16 == 1 {
            longer ^ generator
        } else {
            longer
        }
    })
}

/// The register with zeros for the sixteen bits at a place, which are put back.
fn with_zero(slip: &str, frame: &mut [u8], from: usize, to: usize, at: usize) -> u32 {
    let kept = bits::get(frame, at, 16);
    bits::set(frame, at, 16, 0);
    let register = ran(slip, frame, from, to);
    bits::set(frame, at, 16, kept);
    register
}

/// The crc1 that makes the register zero, from what each of its bits does to it.
fn solved(slip: &str, frame: &mut [u8], from: usize, to: usize) -> u32 {
    let mut wanted = with_zero(slip, frame, from, to, 16);
    // Each bit alone, moved on as far as the register is.
    let mut basis: Vec<(u32, u32)> = Vec::new();
    for bit in 0..16 {
        let mut alone = vec![0; to.div_ceil(8).max(4)];
        bits::set(&mut alone, 16, 16, 1 << bit);
        let (mut value, mut word) = (ran(slip, &alone, 16, to), 1 << bit);
        for (other, theirs) in &basis {
            if value ^ other < value {
                (value, word) = (value ^ other, word ^ theirs);
            }
        }
        if value > 0 {
            basis.push((value, word));
            basis.sort_by(|a, b| b.cmp(a));
        }
    }
    let mut found = 0;
    for (value, word) in &basis {
        if wanted ^ value < wanted {
            (wanted, found) = (wanted ^ value, found ^ word);
        }
    }
    found
}

#[test]
fn slips_are_noticed() {
    let mut noticed = vec![0usize; SLIPS.len()];
    let (mut without, mut calls) = (0usize, 0usize);
    let mut compare = |case: &Case<'_>| {
        let differs = |slip: &str| {
            let mut capture = case.capture.to_vec();
            let (mut room, mut changes) = (fresh_room(case.room.len()), fresh_changes());
            let told = slipped(
                slip,
                &mut capture,
                case.place,
                case.programme,
                case.level,
                &mut room,
                &mut changes,
            );
            told != case.answer
                || capture != case.after
                || room != case.room
                || changes != *case.changes
        };
        calls += 1;
        // (Bit by bit this takes long: of most calls, those that are refused without one.)
        if case.answer[0] != 0 || calls % 7 == 0 {
            without += usize::from(differs("none"));
        }
        for (slip, times) in SLIPS.iter().zip(&mut noticed) {
            // Once is enough.
            if *times == 0 {
                *times += usize::from(differs(slip));
            }
        }
    };
    Levels::new(1, &mut compare).run(1, 1, Amounts::of_size(0));
    assert_eq!(without, 0, "without a slip nothing differs");
    for (slip, times) in SLIPS.iter().zip(noticed) {
        assert!(times > 0, "{slip}");
    }
}
