//! Values that may be edited: the list, against its words and against the published text; `set`, each answer written out; edits of accepted
//! frames; and slips of `set` that the generator's calls must notice.

use judge::craft::{small, Asked};
use judge::cut::{answer, MANY_ROWS};
use judge::edit::{editable, set, LISTED};
use judge::edit_cases::{Call, Case, Edits, Write, ANNOUNCING};
use judge::layout::{row_at, ROW};
use judge::names::{number, Width, COUNT, NAMES};

/// The names of the list, in the order of their numbers.
fn listed() -> Vec<&'static str> {
    let names = (1..).zip(&NAMES).filter(|(n, _)| editable(*n));
    names.map(|(_, name)| name.text).collect()
}

#[test]
fn the_list_has_39_names() {
    assert_eq!(listed().len(), 39);
    let words = LISTED.iter().map(|(_, names)| names.len());
    assert_eq!(words.sum::<usize>(), 39, "none is listed twice");
    for other in [0, COUNT + 1, 256 + 2, (1 << 32) + 2, usize::MAX] {
        assert!(!editable(other), "{other}");
    }
}

/// A twin is a name of the second programme whose first one is listed.
#[test]
fn twins_are_listed_together() {
    let (_, twins) = LISTED.last().expect("the twins");
    let names: Vec<&str> = NAMES.iter().map(|name| name.text).collect();
    let with_twin = listed().into_iter().filter(|name| !twins.contains(name));
    let mut found: Vec<String> = with_twin.map(|name| format!("{name}2")).collect();
    found.retain(|twin| names.contains(&&twin[..]));
    assert_eq!(found, *twins);
}

#[test]
fn neither_flags_that_announce_nor_spans_are_listed() {
    for flag in ANNOUNCING {
        assert!(!editable(number(flag) as usize), "{flag}");
        let name = NAMES.iter().find(|name| name.text == flag).expect("a name");
        assert!(matches!(name.width, Width::Bits(1)), "{flag}");
    }
    for (n, name) in (1..).zip(&NAMES) {
        assert!(!(editable(n) && name.role.is_span()), "{}", name.text);
    }
}

/// The published text reads the listed names and drops their values; it keeps or judges every other value.
#[test]
fn the_published_text_drops_the_values_of_the_list() {
    let text = include_str!("../ddpmeta/ac3.rs");
    // The names that both programmes have stand in variables.
    let of_programmes = |variable: &str| match variable {
        "dn" => ["dialnorm", "dialnorm2"],
        "c" => ["compr", "compr2"],
        "lcd" => ["langcod", "langcod2"],
        "ml" => ["mixlevel", "mixlevel2"],
        "rt" => ["roomtyp", "roomtyp2"],
        "v" => ["dynrng", "dynrng2"],
        other => panic!("{other}"),
    };
    let mut dropped: Vec<&str> = Vec::new();
    let statements = text.lines().map(str::trim);
    for line in statements.filter(|l| l.starts_with("cur.get") && l.ends_with("?;")) {
        let (_, arguments) = line.split_once('(').expect("a call");
        let name = arguments.split(',').next().expect("a name");
        match name.strip_prefix('"') {
            Some(name) => dropped.push(name.trim_end_matches('"')),
            None => dropped.extend(of_programmes(name)),
        }
    }
    dropped.sort_by_key(|name| number(name));
    assert_eq!(dropped, listed());
    // Those of exponents and delta segments are all kept.
    let blocks = include_str!("../ddpmeta/blocks.rs").lines().map(str::trim);
    let mut dropping = blocks.filter(|l| l.starts_with("cur.get") && l.ends_with("?;"));
    assert_eq!(dropping.next(), None);
}

/// What `set` answers and leaves of these bytes.
fn told(bytes: &[u8], place: usize, position: usize, width: usize, value: usize) -> (u8, Vec<u8>) {
    let mut capture = bytes.to_vec();
    let answer = set(&mut capture, place, position, width, value);
    (answer, capture)
}

#[test]
fn values_written() {
    let zeros = [0; 3];
    let ones = [0xFF; 3];
    assert_eq!(told(&zeros, 0, 0, 1, 1), (0, vec![0x80, 0, 0]));
    assert_eq!(told(&zeros, 0, 7, 1, 1), (0, vec![1, 0, 0]));
    assert_eq!(told(&zeros, 2, 7, 1, 1), (0, vec![0, 0, 1]));
    assert_eq!(told(&ones, 0, 0, 1, 0), (0, vec![0x7F, 0xFF, 0xFF]));
    assert_eq!(told(&zeros, 0, 0, 16, 0x0B77), (0, vec![0x0B, 0x77, 0]));
    assert_eq!(told(&zeros, 1, 0, 16, 0x0B77), (0, vec![0, 0x0B, 0x77]));
    // Sixteen bits over three bytes: 0 0001 0111 0110 111, and seven bits that stay.
    assert_eq!(told(&zeros, 0, 1, 16, 0x0B77), (0, vec![0x05, 0xBB, 0x80]));
    assert_eq!(told(&ones, 0, 1, 16, 0x0B77), (0, vec![0x85, 0xBB, 0xFF]));
    assert_eq!(told(&ones, 0, 5, 5, 0b01010), (0, vec![0xFA, 0xBF, 0xFF]));
    assert_eq!(told(&ones, 0, 5, 5, 31), (0, ones.to_vec()));
    // A position may lead past a byte of the place.
    assert_eq!(told(&zeros, 1, 9, 3, 5), (0, vec![0, 0, 0x50]));
    assert_eq!(told(&zeros, 0, 17, 3, 5), (0, vec![0, 0, 0x50]));
}

#[test]
fn refusals_of_set() {
    let bytes = [0xA5; 3];
    let refused = |place, position, width, value| {
        let (answer, after) = told(&bytes, place, position, width, value);
        assert_eq!(after == bytes, answer != 0);
        answer
    };
    for width in [0, 17, 18, 32, 64, 65, usize::MAX] {
        assert_eq!(refused(0, 0, width, 0), 57, "{width}");
    }
    assert_eq!(refused(0, 8, 16, 0), 0);
    assert_eq!(refused(0, 9, 16, 0), 58);
    assert_eq!(refused(2, 7, 1, 0), 0);
    assert_eq!(refused(2, 8, 1, 0), 58);
    assert_eq!(refused(3, 0, 1, 0), 58);
    assert_eq!(refused(1 << 61, 0, 1, 0), 58);
    assert_eq!(refused(usize::MAX, usize::MAX, 16, 0), 58);
    assert_eq!(refused(1, usize::MAX - 7, 1, 0), 58);
    assert_eq!(refused(0, usize::MAX, 1, 0), 58);
    for width in 1..=16 {
        assert_eq!(refused(0, 3, width, 1 << width), 59, "{width}");
        assert_eq!(refused(0, 3, width, usize::MAX), 59, "{width}");
        assert_eq!(told(&bytes, 0, 3, width, (1 << width) - 1).0, 0, "{width}");
    }
    assert_eq!(refused(0, 0, 8, (1 << 32) + 1), 59);
    // In this order.
    assert_eq!(refused(0, 9, 17, usize::MAX), 57);
    assert_eq!(refused(0, 9, 16, 65536), 58);
    assert_eq!(refused(0, 8, 16, 65536), 59);
    assert_eq!(told(&[], 0, 0, 1, 0), (58, Vec::new()));
    assert_eq!(told(&[], 0, 0, 0, 0), (57, Vec::new()));
}

/// The smallest frame with compr: one number of its rows is changed, and it is the one that was set.
#[test]
fn compr_of_the_smallest_frame() {
    let frame = small(&|a: &Asked| match a.name {
        "compre" => Some(1),
        "compr" => Some(0x21),
        _ => None,
    });
    let parsed = |frame: &[u8]| {
        let mut room = vec![0; MANY_ROWS * ROW];
        let told = answer(frame, 0, &mut room);
        assert_eq!((told.number(), told.rows), (0, 96));
        room
    };
    let before = parsed(&frame);
    let at = before
        .chunks(ROW)
        .position(|row| row[row_at::NAME] == number("compr"))
        .expect("compr");
    let row = &before[at * ROW..][..ROW];
    assert_eq!(row, [14, 8, 0, -1, -1, 58, 8, 0x21, -1]);
    let mut edited = frame.clone();
    assert_eq!(set(&mut edited, 0, 58, 8, 0xFD), 0);
    let mut expected = before.clone();
    expected[at * ROW + row_at::VALUE] = 0xFD;
    assert_eq!(parsed(&edited), expected);
}

/// The generator reaches all that it is to reach; a disagreement with what it knows beforehand would stop it.
#[test]
fn every_name_is_edited_and_every_other_one_steers() {
    let mut nothing = |_: &Case<'_>| {};
    let mut edits = Edits::new(1, &mut nothing);
    edits.run(10_000);
    for (n, name) in (1..).zip(&NAMES) {
        let (edited, tried) = (edits.fields[n], edits.steering[n]);
        let steers = format!("steers {} times of {}", tried.differed, tried.times);
        println!("{n} {}: edited {edited} times, {steers}", name.text);
        assert!(edited == 0 || tried.times == 0, "{}", name.text);
    }
    assert_eq!(edits.missed(), Vec::<String>::new());
}

/// Implementations of `set` with one slip each. The generator's calls must tell each from the judge.
const SLIPS: [&str; 24] = [
    "a bit late",
    "a bit early",
    "least significant bit first",
    "place left out",
    "place in bits",
    "position within the byte alone",
    "bits are set and never cleared",
    "bits are cleared and never set",
    "third byte left out",
    "the bit after it is cleared",
    "width 0 taken",
    "57 for 16 bits",
    "57 not for 17 bits",
    "57 after 58",
    "57 after 59",
    "58 where it ends with the capture",
    "58 a bit late",
    "58 a byte late",
    "58 by 64 bits",
    "58 after 59",
    "59 for the largest value",
    "59 not for 2 to the width",
    "59 by 16 bits",
    "written in spite of 59",
];

/// The judge's answer again, with a slip.
fn slipped(slip: &str, capture: &mut [u8], place: usize, write: Write) -> u8 {
    let Write {
        position,
        width,
        value,
    } = write;
    let is = |what: &str| slip == what;
    let least = usize::from(!is("width 0 taken"));
    let widest = 16 + usize::from(is("57 not for 17 bits")) - usize::from(is("57 for 16 bits"));
    let wrong_width = width < least || width > widest;
    let of_place = match slip {
        "place left out" => 0,
        "place in bits" => place as u128,
        _ => 8 * place as u128,
    };
    let mut first = of_place + position as u128;
    let mut end = first + width as u128;
    if is("58 by 64 bits") {
        first %= 1 << 64;
        end = (first + width as u128) % (1 << 64);
    }
    let allowed = 8 * capture.len() as u128
        + match slip {
            "58 a bit late" => 1,
            "58 a byte late" => 8,
            _ => 0,
        };
    let past = end > allowed || is("58 where it ends with the capture") && end == allowed;
    let held = if is("59 by 16 bits") {
        value & 0xFFFF
    } else {
        value
    };
    let over = 1usize
        .checked_shl(width.min(64) as u32)
        .unwrap_or(usize::MAX);
    let too_large = match slip {
        "59 for the largest value" => held >= over - 1,
        "59 not for 2 to the width" => held > over,
        _ => held >= over,
    };
    let mut checks = [(57, wrong_width), (58, past), (59, too_large)];
    match slip {
        "57 after 58" => checks.swap(0, 1),
        "57 after 59" => checks.rotate_left(1),
        "58 after 59" => checks.swap(1, 2),
        _ => {}
    }
    let refusal = checks.into_iter().find(|(_, fails)| *fails);
    let refusal = refusal.map_or(0, |(number, _)| number);
    if refusal != 0 && !(refusal == 59 && is("written in spite of 59")) {
        return refusal;
    }
    for i in 0..width {
        let shift = match slip {
            "least significant bit first" => i,
            _ => width - 1 - i,
        };
        let one = value >> shift & 1 == 1;
        let at = match slip {
            "a bit late" => (first as usize).wrapping_add(i + 1),
            "a bit early" => (first as usize).wrapping_add(i).wrapping_sub(1),
            "position within the byte alone" => 8 * place + position % 8 + i,
            _ => (first as usize).wrapping_add(i),
        };
        if is("third byte left out") && at / 8 == first as usize / 8 + 2 {
            continue;
        }
        // (What a slip writes past the capture is not written.)
        let Some(byte) = capture.get_mut(at / 8) else {
            continue;
        };
        let mask = 0x80 >> (at % 8);
        if one && !is("bits are cleared and never set") {
            *byte |= mask;
        } else if !one && !is("bits are set and never cleared") {
            *byte &= !mask;
        }
    }
    let after = (first as usize).wrapping_add(width);
    if is("the bit after it is cleared") && after / 8 < capture.len() {
        capture[after / 8] &= !(0x80 >> (after % 8));
    }
    refusal
}

#[test]
fn slips_are_noticed() {
    let mut noticed = vec![0usize; SLIPS.len()];
    let mut without = 0usize;
    let differs = |slip: &str, call: &Call<'_>| {
        let mut capture = call.before.to_vec();
        let answer = slipped(slip, &mut capture, call.place, call.write);
        answer != call.answer || capture != call.after
    };
    let mut compare = |case: &Case<'_>| {
        let Case::Set(call) = case else { return };
        without += usize::from(differs("none", call));
        for (slip, times) in SLIPS.iter().zip(&mut noticed) {
            // Once is enough.
            if *times == 0 {
                *times += usize::from(differs(slip, call));
            }
        }
    };
    Edits::new(1, &mut compare).run(2_000);
    assert_eq!(without, 0, "without a slip nothing differs");
    for (slip, times) in SLIPS.iter().zip(noticed) {
        assert!(times > 0, "{slip}");
    }
}
