//! Bursts: the cases to be tried by name, each with the answer that the description of a burst gives, written out.

use judge::burst::{read, write, BURST};
use judge::burst_cases::{fresh, Asked, Bursts, Case};
use judge::cases::Amounts;
use judge::craft::{sized, small, Asked as Value};
use judge::cut::{answer, MANY_ROWS};
use judge::layout::{BurstAnswer, ROW};

/// The smallest frame, and how many rows it has.
fn smallest(bsmod: u32) -> (Vec<u8>, i32) {
    let frame = small(&|a: &Value| (a.name == "bsmod").then_some(bsmod));
    (frame, 95)
}

/// The burst of an accepted frame.
fn written(frame: &[u8]) -> Vec<u8> {
    let (mut room, mut out) = fresh(ROW * MANY_ROWS, BURST);
    let told = write(frame, 0, &mut room, &mut out);
    assert_eq!((told[0], told[2]), (0, 6144));
    out
}

/// What reading into `bytes` bytes tells; the room must be as the parse of the ninth byte on leaves it, or untouched at 30 and 31; the
/// output untouched, or the frame in front.
fn told(burst: &[u8], bytes: usize) -> BurstAnswer {
    let (mut room, mut out) = fresh(ROW * 200, bytes);
    let (mut parsed, mut expected) = (room.clone(), out.clone());
    let told = read(burst, &mut room, &mut out);
    match told[0] {
        30 | 31 => assert_eq!(told, [told[0], 0, 0]),
        _ => {
            let rows = answer(&burst[8..], 0, &mut parsed).rows;
            assert_eq!(told[1], rows as i32);
        }
    }
    assert_eq!(room, parsed);
    let written = told[2] as usize;
    assert_eq!(written > 0, told[0] == 0);
    if written > 0 {
        expected[..written].copy_from_slice(&burst[8..8 + written]);
    }
    assert_eq!(out, expected);
    told
}

#[test]
fn a_frame_of_128_bytes() {
    for bsmod in 0..8 {
        let (frame, rows) = smallest(bsmod);
        let burst = written(&frame);
        // 128 bytes are 1,024 bits.
        let front = [0xF8, 0x72, 0x4E, 0x1F, bsmod as u8, 0x01, 0x04, 0x00];
        assert_eq!(burst[..8], front);
        assert_eq!(burst[8..136], frame);
        assert_eq!(burst[136..], [0; 6144 - 136]);
        assert_eq!(told(&burst, 128), [0, rows, 128]);
    }
}

#[test]
fn a_frame_of_3840_bytes() {
    let frame = sized(2, 37, &|_| None);
    assert_eq!(frame.len(), 3840);
    let burst = written(&frame);
    // 30,720 bits.
    assert_eq!(burst[..8], [0xF8, 0x72, 0x4E, 0x1F, 0x00, 0x01, 0x78, 0x00]);
    assert_eq!(burst[8..3848], frame);
    assert_eq!(burst[3848..], [0; 6144 - 3848]);
    assert_eq!(told(&burst, 3840), [0, 95, 3840]);
    assert_eq!(told(&burst, 3839), [28, 95, 0]);
}

#[test]
fn at_a_later_place() {
    let (frame, rows) = smallest(5);
    let capture = [&[7; 30], &frame[..], &[9; 11]].concat();
    let (mut room, mut out) = fresh(ROW * 200, BURST + 10);
    let (_, untouched) = fresh(0, BURST + 10);
    assert_eq!(write(&capture, 30, &mut room, &mut out), [0, rows, 6144]);
    assert_eq!(out[..BURST], written(&frame));
    assert_eq!(out[BURST..], untouched[BURST..]);
}

#[test]
fn output_one_byte_short() {
    let (frame, rows) = smallest(0);
    let (mut room, mut out) = fresh(ROW * 200, 6143);
    assert_eq!(write(&frame, 0, &mut room, &mut out), [28, rows, 0]);
    assert_eq!(out, fresh(0, 6143).1);
    // The parse has been: its rows are left.
    let (mut parsed, _) = fresh(ROW * 200, 0);
    answer(&frame, 0, &mut parsed);
    assert_eq!(room, parsed);

    let burst = written(&frame);
    assert_eq!(told(&burst, 127), [28, rows, 0]);
    assert_eq!(told(&burst, 0), [28, rows, 0]);
    assert_eq!(told(&burst, 129), [0, rows, 128]);
}

#[test]
fn the_frames_own_refusals() {
    let (frame, _) = smallest(0);
    let (mut room, mut out) = fresh(ROW * 200, 0);
    assert_eq!(write(&frame[..127], 0, &mut room, &mut out), [4, 4, 0]);
    assert_eq!(write(&frame, 123, &mut room, &mut out), [1, 0, 0]);
    assert_eq!(write(&frame, usize::MAX, &mut room, &mut out), [1, 0, 0]);
    let (mut room, _) = fresh(ROW * 95 - 1, 0);
    assert_eq!(write(&frame, 0, &mut room, &mut out), [7, 94, 0]);

    let mut burst = written(&frame);
    burst[8] ^= 1;
    assert_eq!(told(&burst, 128), [2, 1, 0]);
    // The header of a frame of bsid 9, after a length of 0: the frame's number comes first.
    let mut burst = written(&frame);
    burst[13] = 0x48;
    burst[6] = 0;
    assert_eq!(told(&burst, 128), [5, 5, 0]);
}

#[test]
fn bursts_of_6143_and_6145_bytes() {
    let (frame, _) = smallest(0);
    let burst = written(&frame);
    assert_eq!(told(&burst[..6143], 128), [30, 0, 0]);
    assert_eq!(told(&[&burst[..], &[0]].concat(), 128), [30, 0, 0]);
    assert_eq!(told(&[], 128), [30, 0, 0]);
}

#[test]
fn each_bit_of_the_words() {
    let (frame, rows) = smallest(3);
    let burst = written(&frame);
    for word in 0..4 {
        for bit in 0..16 {
            let mut turned = burst.clone();
            // Bit 0 is the least significant, in the second byte.
            turned[2 * word + 1 - bit / 8] ^= 1 << (bit % 8);
            let expected = match (word, bit) {
                (2, 8..=10) => [34, rows, 0],
                (0..=2, _) => [31, 0, 0],
                _ => [32, rows, 0],
            };
            assert_eq!(told(&turned, 128), expected, "word {word}, bit {bit}");
        }
    }
}

#[test]
fn one_byte_after_the_frame() {
    let (frame, rows) = smallest(0);
    for at in [136, 137, 6142, 6143] {
        for value in [1, 128, 255] {
            let mut burst = written(&frame);
            burst[at] = value;
            assert_eq!(told(&burst, 128), [33, rows, 0], "byte {at}");
        }
    }
}

#[test]
fn bsmod_differing() {
    for sent in 0..8 {
        let (frame, rows) = smallest(sent);
        for said in 0..8 {
            let mut burst = written(&frame);
            burst[4] = said;
            let same = u32::from(said) == sent;
            let expected = if same { [0, rows, 128] } else { [34, rows, 0] };
            assert_eq!(told(&burst, 128), expected, "{said} for {sent}");
        }
    }
}

#[test]
fn the_order_of_the_refusals() {
    let (frame, rows) = smallest(0);
    // Every fault at once, mended one after the other from the first.
    let mut burst = written(&frame);
    burst[1] ^= 1;
    burst[4] ^= 1;
    burst[7] ^= 1;
    burst[9] ^= 1;
    burst[136] = 1;
    burst.push(0);
    assert_eq!(told(&burst, 0), [30, 0, 0]);
    burst.pop();
    assert_eq!(told(&burst, 0), [31, 0, 0]);
    burst[1] ^= 1;
    assert_eq!(told(&burst, 0), [2, 1, 0]);
    burst[9] ^= 1;
    assert_eq!(told(&burst, 0), [32, rows, 0]);
    burst[7] ^= 1;
    assert_eq!(told(&burst, 0), [33, rows, 0]);
    burst[136] = 0;
    assert_eq!(told(&burst, 0), [34, rows, 0]);
    burst[4] ^= 1;
    assert_eq!(told(&burst, 0), [28, rows, 0]);
    assert_eq!(told(&burst, 128), [0, rows, 128]);
}

/// The generator reaches all that it is to reach; a disagreement with what it knows beforehand would stop it.
#[test]
fn every_refusal_is_generated() {
    let mut nothing = |_: &Case<'_>| {};
    let mut bursts = Bursts::new(1, &mut nothing);
    bursts.run(1, Amounts::of_size(1));
    assert_eq!(bursts.missed(), Vec::<String>::new());
}

/// Implementations with one slip each. The generator's calls must tell each from the judge.
const SLIPS: [&str; 22] = [
    "length in bytes",
    "bsmod in bits 9 to 11",
    "words low byte first",
    "no zeros written",
    "last zero not written",
    "28 before the frame's own when writing",
    "28 at 6,144 bytes too",
    "a byte written at 28",
    "burst longer than 6,144 taken",
    "burst of 6,143 taken",
    "31 before 30",
    "31 for bits 8 to 10 too",
    "room written at 31",
    "32 before the frame's own",
    "rows 0 at 32",
    "zeros looked for a byte late",
    "last byte not looked at",
    "33 before 32",
    "34 before 33",
    "34 left out",
    "28 before 34",
    "all bytes after the words copied",
];

/// The judge's answer again, with a slip.
fn slipped(slip: &str, asked: Asked<'_>, room: &mut [i32], out: &mut [u8]) -> BurstAnswer {
    match asked {
        Asked::Write { capture, place } => slipped_write(slip, capture, place, room, out),
        Asked::Read { burst } => slipped_read(slip, burst, room, out),
    }
}

fn slipped_write(
    slip: &str,
    capture: &[u8],
    place: usize,
    room: &mut [i32],
    out: &mut [u8],
) -> BurstAnswer {
    let least = BURST + usize::from(slip == "28 at 6,144 bytes too");
    if slip == "28 before the frame's own when writing" && out.len() < least {
        return [28, 0, 0];
    }
    let parsed = answer(capture, place, room);
    let rows = parsed.rows as i32;
    let length = match parsed.verdict {
        Ok(summary) => summary.bytes,
        Err(no) => return [no.number as i32, rows, 0],
    };
    if out.len() < least {
        if slip == "a byte written at 28" && !out.is_empty() {
            out[0] = 0xF8;
        }
        return [28, rows, 0];
    }
    let frame = &capture[place..place + length];
    let bsmod = usize::from(frame[5] & 7);
    let third = 1 + bsmod
        * if slip == "bsmod in bits 9 to 11" {
            512
        } else {
            256
        };
    let fourth = length * if slip == "length in bytes" { 1 } else { 8 };
    for (i, word) in [0xF872, 0x4E1F, third as u16, fourth as u16]
        .into_iter()
        .enumerate()
    {
        let low_first = slip == "words low byte first";
        let bytes = if low_first {
            word.to_le_bytes()
        } else {
            word.to_be_bytes()
        };
        out[2 * i..2 * i + 2].copy_from_slice(&bytes);
    }
    out[8..8 + length].copy_from_slice(frame);
    let zeros_to = match slip {
        "no zeros written" => 8 + length,
        "last zero not written" => BURST - 1,
        _ => BURST,
    };
    out[8 + length..zeros_to].fill(0);
    [0, rows, 6144]
}

fn slipped_read(slip: &str, burst: &[u8], room: &mut [i32], out: &mut [u8]) -> BurstAnswer {
    let bits = if slip == "31 for bits 8 to 10 too" {
        0xFF
    } else {
        0xF8
    };
    let wrong_words =
        |b: &[u8]| b[..4] != [0xF8, 0x72, 0x4E, 0x1F] || b[4] & bits != 0 || b[5] != 1;
    if slip == "31 before 30" && burst.len() >= 6 && wrong_words(burst) {
        return [31, 0, 0];
    }
    let right_size = match slip {
        "burst longer than 6,144 taken" => burst.len() >= BURST,
        "burst of 6,143 taken" => burst.len() == BURST || burst.len() == BURST - 1,
        _ => burst.len() == BURST,
    };
    if !right_size {
        return [30, 0, 0];
    }
    let parsed = if wrong_words(burst) {
        if slip == "room written at 31" {
            answer(&burst[8..], 0, room);
        }
        return [31, 0, 0];
    } else {
        answer(&burst[8..], 0, room)
    };
    let rows = parsed.rows as i32;
    let told = usize::from(burst[6]) * 256 + usize::from(burst[7]);
    let length = match parsed.verdict {
        Ok(summary) => summary.bytes,
        Err(no) => {
            let code = usize::from(burst[12]);
            let words = judge::tables::ac3_frame_words(code >> 6, code & 63);
            let before =
                slip == "32 before the frame's own" && words.is_some_and(|w| 16 * w != told);
            return [if before { 32 } else { no.number as i32 }, rows, 0];
        }
    };
    let after = match slip {
        "zeros looked for a byte late" => &burst[9 + length..],
        "last byte not looked at" => &burst[8 + length..burst.len() - 1],
        _ => &burst[8 + length..],
    };
    let mut checks = [
        (32, told != 8 * length),
        (33, after.iter().any(|b| *b != 0)),
        (34, burst[4] != burst[13] & 7 && slip != "34 left out"),
        (28, out.len() < length),
    ];
    match slip {
        "33 before 32" => checks.swap(0, 1),
        "34 before 33" => checks.swap(1, 2),
        "28 before 34" => checks.swap(2, 3),
        _ => {}
    }
    if let Some((number, _)) = checks.into_iter().find(|(_, fails)| *fails) {
        let none = slip == "rows 0 at 32" && number == 32;
        return [number, if none { 0 } else { rows }, 0];
    }
    let all = slip == "all bytes after the words copied";
    let copied = if all {
        out.len().min(BURST - 8)
    } else {
        length
    };
    out[..copied].copy_from_slice(&burst[8..8 + copied]);
    [0, rows, length as i32]
}

#[test]
fn slips_are_noticed() {
    let mut noticed = vec![0usize; SLIPS.len()];
    let mut without = 0usize;
    let mut compare = |case: &Case<'_>| {
        let differs = |slip: &str| {
            let (mut room, mut out) = fresh(case.room.len(), case.out.len());
            let told = slipped(slip, case.asked, &mut room, &mut out);
            told != case.answer || room != case.room || out != case.out
        };
        without += usize::from(differs("none"));
        for (slip, times) in SLIPS.iter().zip(&mut noticed) {
            // Once is enough.
            if *times == 0 {
                *times += usize::from(differs(slip));
            }
        }
    };
    Bursts::new(1, &mut compare).run(1, Amounts::of_size(0));
    assert_eq!(without, 0, "without a slip nothing differs");
    for (slip, times) in SLIPS.iter().zip(noticed) {
        assert!(times > 0, "{slip}");
    }
}
