//! Packed listings: the cases to be tried by name, each with the answer that the description gives, written out; and slips that the
//! generator's calls must notice.

use judge::hex;
use judge::layout::PackAnswer;
use judge::packed::cases::{fresh, Case, Packs, Way};
use judge::packed::{pack, unpack};

/// The packed form of a text, as hexadecimal digits, or its refusal.
fn packed(text: &str) -> Result<String, usize> {
    let mut out = fresh(100);
    let [refusal, written] = pack(text.as_bytes(), &mut out);
    assert_eq!(out[written..], fresh(100)[written..]);
    match refusal {
        0 => Ok(hex::of(&out[..written])),
        refusal => Err(refusal),
    }
}

/// The text of a packed form, given as hexadecimal digits, or its refusal.
fn text(digits: &str) -> Result<String, usize> {
    let mut out = fresh(100);
    let [refusal, written] = unpack(&hex::bytes(digits), &mut out);
    assert_eq!(out[written..], fresh(100)[written..]);
    match refusal {
        0 => Ok(String::from_utf8(out[..written].to_vec()).expect("text")),
        refusal => Err(refusal),
    }
}

#[test]
fn listings_and_their_packed_forms() {
    for (listing, digits) in [
        ("audio 0 0 0\n", "0101010101"),
        ("audio -1 126 127\n", "0101007f8001"),
        ("refused 7 0 0 0 -1\n", "01020801010100"),
        (
            "1 2 3 4 5 6 7 8 -1\naudio 1 2 3\n",
            "0202030405060708090001020304",
        ),
        (
            "0 0 0 0 0 0 0 0 0\n0 0 0 0 0 0 0 0 0\naudio 0 0 0\n",
            "0301010101010101010101010101010101010101010101",
        ),
        ("audio 16382 16383 2147483646\n", "0101ff7f808001ffffffff07"),
        ("refused 2147483647 0 0 0 -1\n", "0102808080800801010100"),
    ] {
        assert_eq!(packed(listing).as_deref(), Ok(digits), "{listing}");
        assert_eq!(text(digits).as_deref(), Ok(listing), "{digits}");
    }
}

#[test]
fn refusals_of_texts() {
    for (listing, refusal) in [
        ("", 43),
        ("a", 43),
        ("audio 0 0 0", 43),
        ("-", 43),
        ("audio 2147483647", 43),
        ("0 0 0 0 0 0 0 0 0\n", 43),
        ("audio 2147483648", 42),
        ("audio 99999999999x", 42),
        ("audio 2147483648 -0 0\n", 42),
        ("audio -0 2147483648 0\n", 40),
        ("audio -5 0 0\n", 40),
        ("audio 01 0 0\n", 40),
        ("audio +1 0 0\n", 40),
        ("audio  0 0 0\n", 40),
        ("audio 0 0\n", 40),
        ("refused 7 0 0\n", 40),
        ("0 0 0 0 0 0 0 0\naudio 0 0 0\n", 40),
        ("0 0 0 0 0 0 0 0 0 0\naudio 0 0 0\n", 40),
        ("other 0 0 0\n", 40),
        ("audio 0 0 0\n\n", 44),
        ("audio 0 0 0\naudio 0 0 0\n", 44),
    ] {
        assert_eq!(packed(listing), Err(refusal), "{listing:?}");
    }
}

#[test]
fn refusals_of_packed_forms() {
    for (digits, refusal) in [
        ("", 43),
        ("01", 43),
        ("01010101", 43),
        ("010180", 43),
        // No right number goes on so, but none of the others is met: the input ends.
        ("8080808080", 43),
        ("0200", 43),
        ("00", 46),
        ("0100", 46),
        ("0103", 46),
        ("01ffff7f", 46),
        // A needless group is met before the number is known.
        ("8000", 41),
        ("018000", 41),
        ("0101ff00", 41),
        ("0101808080808000", 41),
        ("0101808080808800", 41),
        ("01018180808008", 42),
        ("0101ffffffffff00", 42),
        ("0101808080808001", 42),
        ("8180808008", 42),
        ("010101010101", 44),
        ("010101010100", 44),
        ("01010101018000", 44),
    ] {
        assert_eq!(text(digits), Err(refusal), "{digits}");
    }
}

#[test]
fn the_room_comes_last() {
    let ample = fresh(40);
    let mut out = fresh(40);
    assert_eq!(pack(b"audio 0 0 0\n", &mut out[..4]), [45, 0]);
    assert_eq!(pack(b"audio 0 0 0\n ", &mut out[..4]), [44, 0]);
    assert_eq!(pack(b"audio 0 0 0", &mut []), [43, 0]);
    assert_eq!(unpack(&[1, 1, 1, 1, 1], &mut out[..11]), [45, 0]);
    assert_eq!(unpack(&[1, 3], &mut []), [46, 0]);
    assert_eq!(unpack(&[1, 1, 1, 1, 1, 1], &mut []), [44, 0]);
    assert_eq!(out, ample);
    assert_eq!(pack(b"audio 0 0 0\n", &mut out[..5]), [0, 5]);
    assert_eq!(unpack(&[1, 1, 1, 1, 1], &mut out[..12]), [0, 12]);
}

/// The generator reaches all that it is to reach; a disagreement with what it knows beforehand would stop it.
#[test]
fn every_goal_is_reached() {
    let mut nothing = |_: &Case<'_>| {};
    let mut packs = Packs::new(1, &mut nothing);
    packs.run(1);
    assert_eq!(packs.missed(), Vec::<String>::new());
}

/// Implementations with one slip each. The generator's calls must tell each from the judge.
const SLIPS: [&str; 58] = [
    "-0 taken",
    "-2 taken",
    "leading zeros taken",
    "a plus sign taken",
    "a second space taken",
    "a tab taken for a space",
    "a carriage return taken",
    "a last line feed not wanted",
    "2,147,483,647 refused as text",
    "2,147,483,648 taken as text",
    "too large is malformed",
    "too large told at the number's end",
    "32 bits wrap around",
    "ten numbers to a row",
    "eight numbers to a row",
    "refused with three numbers",
    "audio with five numbers",
    "another word with its first letter taken",
    "an empty line passed over",
    "an empty text is malformed",
    "an end within a number is malformed",
    "an end after a row is malformed",
    "bytes left over in a text are malformed",
    "bytes left over in a text are passed over",
    "a line feed left over in a text is passed over",
    "rows not counted plus one",
    "numbers not stored plus one",
    "refused stored as 0",
    "audio stored as 1",
    "the row count after the rows",
    "the row count in one group",
    "the highest group first",
    "127 stored in two groups",
    "groups of eight bits",
    "a needless group taken",
    "a needless group is too large",
    "a needless group in the row count is wrong",
    "a needless group of audio or refused is wrong",
    "at most five groups",
    "too large after five groups of 0x80",
    "too large told at the last group",
    "groups past the tenth lost",
    "groups past the fifth lost",
    "a stored 2,147,483,648 refused",
    "a stored 2,147,483,649 taken",
    "a row count of -1 taken",
    "audio or refused -1 taken",
    "audio or refused 2 taken",
    "audio or refused told after its numbers",
    "-1 unpacked as 0",
    "-1 unpacked as 4294967295",
    "bytes left over in a packed form passed over",
    "a 0 left over in a packed form passed over",
    "an end between numbers is left over",
    "the room comes first",
    "a byte of room too many wanted",
    "written as far as the room goes",
    "the byte after what is written touched",
];

type Made = Result<Vec<u8>, usize>;

/// A text read by a table of states, with a slip.
fn slipped_pack(slip: &str, text: &[u8]) -> Made {
    let is = |other: &str| slip == other;
    let greatest: i64 = match slip {
        "2,147,483,647 refused as text" => 2_147_483_646,
        "2,147,483,648 taken as text" => 2_147_483_648,
        _ => 2_147_483_647,
    };
    let (mut at, mut rows, mut numbers, mut row_count) = (0, Vec::new(), Vec::new(), 0i64);
    let end = if is("an end after a row is malformed") {
        40
    } else {
        43
    };
    let word = loop {
        if is("an empty line passed over") && text.get(at) == Some(&b'\n') {
            at += 1;
            continue;
        }
        let Some(first) = text.get(at) else {
            let empty = is("an empty text is malformed") && text.is_empty();
            return Err(if empty || row_count > 0 && end == 40 {
                40
            } else {
                43
            });
        };
        let (word, count) = match first {
            b'a' => (
                &b"audio"[..],
                if is("audio with five numbers") { 5 } else { 3 },
            ),
            b'r' => (
                &b"refused"[..],
                if is("refused with three numbers") {
                    3
                } else {
                    5
                },
            ),
            _ if is("ten numbers to a row") => (&b""[..], 10),
            _ if is("eight numbers to a row") => (&b""[..], 8),
            _ => (&b""[..], 9),
        };
        let letters = word
            .iter()
            .chain(if word.is_empty() { &b""[..] } else { b" " });
        for (i, letter) in letters.enumerate() {
            match text.get(at) {
                None => return Err(43),
                Some(b) if b == letter => {}
                Some(b'a'..=b'z') if i > 0 && is("another word with its first letter taken") => {}
                Some(_) => return Err(40),
            }
            at += 1;
        }
        for n in 1..=count {
            let ends = if n < count { b' ' } else { b'\n' };
            let spaces = is("a second space taken") && text.get(at) == Some(&b' ');
            at += usize::from(spaces);
            numbers.push(slipped_number(slip, text, &mut at, ends, greatest)?);
        }
        if !word.is_empty() {
            break word;
        }
        row_count += 1;
        rows.append(&mut numbers);
    };
    let left = &text[at.min(text.len())..];
    match slip {
        _ if left.is_empty() => {}
        "bytes left over in a text are malformed" => return Err(40),
        "bytes left over in a text are passed over" => {}
        "a line feed left over in a text is passed over" if left == b"\n" => {}
        _ => return Err(44),
    }
    let kind = match (word, slip) {
        (b"audio", "audio stored as 1") => 1,
        (b"refused", "refused stored as 0") => 0,
        _ => i64::from(word == b"refused"),
    };
    let counted = vec![row_count - i64::from(is("rows not counted plus one"))];
    let all = match is("the row count after the rows") {
        true => [rows, counted, vec![kind], numbers],
        false => [counted, rows, vec![kind], numbers],
    };
    let mut packed = Vec::new();
    for (i, number) in all.concat().into_iter().enumerate() {
        let mut stored = number + i64::from(!is("numbers not stored plus one"));
        let mut groups = Vec::new();
        let (base, bit) = if is("groups of eight bits") {
            (256, 0)
        } else {
            (128, 128)
        };
        let least = if is("127 stored in two groups") {
            127
        } else {
            base
        };
        if is("the row count in one group") && i == 0 {
            stored %= base;
        }
        while stored >= least {
            groups.push((stored % base | bit) as u8);
            stored /= base;
        }
        groups.push(stored as u8);
        if is("the highest group first") {
            groups.reverse();
        }
        packed.extend(groups);
    }
    Ok(packed)
}

fn slipped_number(
    slip: &str,
    text: &[u8],
    at: &mut usize,
    ends: u8,
    greatest: i64,
) -> Result<i64, usize> {
    let is = |other: &str| slip == other;
    let early = if is("an end within a number is malformed") {
        40
    } else {
        43
    };
    let (mut value, mut digits, mut minus, mut late) = (0i64, 0, false, false);
    loop {
        let Some(byte) = text.get(*at) else {
            let whole = is("a last line feed not wanted") && ends == b'\n' && digits > 0;
            return if whole {
                Ok(if minus { -value } else { value })
            } else {
                Err(if digits > 0 || minus { early } else { 43 })
            };
        };
        *at += 1;
        match byte {
            b'-' if digits == 0 && !minus => minus = true,
            b'+' if digits == 0 && is("a plus sign taken") => {}
            b'\r'
                if digits > 0 && is("a carriage return taken") && text.get(*at) == Some(&b'\n') => {
            }
            b'0'..=b'9' => {
                if digits > 0 && value == 0 && !is("leading zeros taken") {
                    return Err(40);
                }
                value = value
                    .saturating_mul(10)
                    .saturating_add(i64::from(byte - b'0'));
                digits += 1;
                if minus {
                    let taken = match value {
                        0 => is("-0 taken"),
                        1 => digits == 1,
                        2 => is("-2 taken"),
                        _ => false,
                    };
                    if !taken {
                        return Err(40);
                    }
                }
                if value > greatest {
                    match slip {
                        "too large is malformed" => return Err(40),
                        "too large told at the number's end" => late = true,
                        "32 bits wrap around" => value &= 0xFFFF_FFFF,
                        _ => return Err(42),
                    }
                }
            }
            _ if digits > 0
                && (*byte == ends
                    || ends == b' ' && *byte == b'\t' && is("a tab taken for a space")) =>
            {
                let value = if minus { -value } else { value };
                return if late { Err(42) } else { Ok(value) };
            }
            _ => return Err(40),
        }
    }
}

/// A packed form read number by number, with a slip.
fn slipped_unpack(slip: &str, packed: &[u8]) -> Made {
    let is = |other: &str| slip == other;
    let mut at = 0;
    let mut next = || -> Result<i64, usize> {
        let (mut stored, mut which, mut late) = (0u128, 0u32, false);
        let greatest = match slip {
            "a stored 2,147,483,648 refused" => 1u128 << 31,
            "a stored 2,147,483,649 taken" => (1 << 31) + 2,
            _ => (1 << 31) + 1,
        };
        loop {
            let Some(byte) = packed.get(at) else {
                return Err(if is("an end between numbers is left over") && which == 0 {
                    44
                } else {
                    43
                });
            };
            at += 1;
            let group = match slip {
                "groups past the tenth lost" if which > 9 => 0,
                "groups past the fifth lost" if which > 4 => 0,
                _ => u128::from(byte & 127),
            };
            stored = stored.saturating_add(group << (7 * which.min(17)));
            which += 1;
            if stored >= greatest {
                match slip {
                    "too large told at the last group" => late = true,
                    _ => return Err(42),
                }
            }
            if *byte < 128 {
                break;
            }
            if which == 5 && is("too large after five groups of 0x80")
                || which == 6 && is("at most five groups")
            {
                return Err(42);
            }
        }
        if packed[at - 1] == 0 && which > 1 {
            let place = at - which as usize;
            let before = packed[..place].iter().filter(|b| **b < 128).count();
            match slip {
                "a needless group taken" => {}
                "a needless group is too large" => return Err(42),
                "a needless group in the row count is wrong" if before == 0 && stored == 0 => {
                    return Err(46)
                }
                "a needless group of audio or refused is wrong"
                    if before == 1 && packed[0] == 1 && ![1, 2].contains(&stored) =>
                {
                    return Err(46)
                }
                _ => return Err(41),
            }
        }
        if late {
            return Err(42);
        }
        Ok(stored as i64 - 1)
    };
    let rows = match next()? {
        -1 if is("a row count of -1 taken") => 0,
        -1 => return Err(46),
        rows => rows,
    };
    let shown = |number: i64| match slip {
        "-1 unpacked as 0" => number.max(0).to_string(),
        "-1 unpacked as 4294967295" => (number as u32).to_string(),
        _ => number.to_string(),
    };
    let mut text = String::new();
    for _ in 0..rows {
        let row = (0..9)
            .map(|_| Ok(shown(next()?)))
            .collect::<Result<Vec<_>, usize>>()?;
        text += &(row.join(" ") + "\n");
    }
    let (mut wrong, kind) = (false, next()?);
    let (word, count) = match kind {
        0 => ("audio", if is("audio with five numbers") { 5 } else { 3 }),
        1 => (
            "refused",
            if is("refused with three numbers") {
                3
            } else {
                5
            },
        ),
        -1 if is("audio or refused -1 taken") => ("audio", 3),
        2 if is("audio or refused 2 taken") => ("refused", 5),
        _ if is("audio or refused told after its numbers") => {
            wrong = true;
            ("audio", 3)
        }
        _ => return Err(46),
    };
    let last = (0..count)
        .map(|_| Ok(shown(next()?)))
        .collect::<Result<Vec<_>, usize>>()?;
    text += &format!("{word} {}\n", last.join(" "));
    let left = &packed[at..];
    match slip {
        _ if wrong => Err(46),
        _ if left.is_empty() => Ok(text.into_bytes()),
        "bytes left over in a packed form passed over" => Ok(text.into_bytes()),
        "a 0 left over in a packed form passed over" if left == [0] => Ok(text.into_bytes()),
        _ => Err(44),
    }
}

fn slipped(slip: &str, way: Way, input: &[u8], out: &mut [u8]) -> PackAnswer {
    let is = |other: &str| slip == other;
    if is("the room comes first") && out.is_empty() {
        return [45, 0];
    }
    let made = match way {
        Way::Pack => slipped_pack(slip, input),
        Way::Unpack => slipped_unpack(slip, input),
    };
    match made {
        Err(refusal) => [refusal, 0],
        Ok(made) => {
            let wanted = made.len() + usize::from(is("a byte of room too many wanted"));
            if wanted > out.len() {
                if is("written as far as the room goes") {
                    let room = out.len();
                    out.copy_from_slice(&made[..room]);
                }
                return [45, 0];
            }
            out[..made.len()].copy_from_slice(&made);
            if is("the byte after what is written touched") && made.len() < out.len() {
                out[made.len()] = 0;
            }
            [0, made.len()]
        }
    }
}

#[test]
fn slips_are_noticed() {
    let mut noticed = vec![0usize; SLIPS.len()];
    let mut without = 0usize;
    let mut compare = |case: &Case<'_>| {
        let differs = |slip: &str| {
            let mut out = fresh(case.out.len());
            let told = slipped(slip, case.way, case.input, &mut out);
            told != case.answer || out != case.out
        };
        without += usize::from(differs("none"));
        for (slip, times) in SLIPS.iter().zip(&mut noticed) {
            // Once is enough.
            if *times == 0 {
                *times += usize::from(differs(slip));
            }
        }
    };
    Packs::new(1, &mut compare).run(1);
    assert_eq!(without, 0, "without a slip nothing differs");
    for (slip, times) in SLIPS.iter().zip(noticed) {
        assert!(times > 0, "{slip}");
    }
}
