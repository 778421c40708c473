//! AHT sections: ends, tags and refusals, each written out; what the published function cannot take; the generator; and slips of the walk
//! that its calls must notice.

use judge::aht::{answer, can_be_published, has_gain, mantissa_bits, published, Asked};
use judge::aht_cases::{allocated, usual, Case, Sections};
use judge::layout::AhtAnswer;
use judge::rng::Rng;
use judge::tables::HEBAP;
use std::panic::catch_unwind;

/// Bytes of these bits, the last one filled with zeros; other characters are passed over.
fn bytes(bits: &str) -> Vec<u8> {
    let bits: Vec<u8> = bits
        .bytes()
        .filter(|b| b"01".contains(b))
        .map(|b| b - b'0')
        .collect();
    let byte = |bits: &[u8]| (0..8).fold(0, |byte, i| 2 * byte + bits.get(i).unwrap_or(&0));
    bits.chunks(8).map(byte).collect()
}

/// The answer for these bits, and 200 zeros more, from bit 0 on, about all bins.
fn told(bits: &str, hebap: &[u8]) -> AhtAnswer {
    let data = [bytes(bits), vec![0; 25]].concat();
    of(&data, 0, 8 * data.len(), hebap, 0, hebap.len())
}

fn of(data: &[u8], at: usize, end: usize, hebap: &[u8], first: usize, past: usize) -> AhtAnswer {
    let asked = Asked {
        data,
        at,
        end,
        hebap,
        first,
        past,
    };
    answer(asked).1
}

#[test]
fn widths_without_gains() {
    assert_eq!(told("00", &[]), [0, 2, 0]);
    assert_eq!(told("00", &[0, 0, 0]), [0, 2, 0]);
    let indices = [0, 2, 3, 4, 5, 7, 8, 9];
    for (hebap, width) in (0..).zip(indices) {
        assert_eq!(told("11", &[hebap]), [0, 2 + width, 0], "{hebap}");
    }
    let mantissas = [3, 4, 5, 6, 7, 8, 9, 10, 11, 12, 14, 16];
    for (hebap, width) in (8..).zip(mantissas) {
        assert_eq!(told("00", &[hebap]), [0, 2 + 6 * width, 0], "{hebap}");
    }
    // 2 + 5 + 6 * 16 + 9.
    assert_eq!(told("00", &[4, 0, 19, 7]), [0, 112, 0]);
}

/// A bit for each of the hebaps 8 to 11 in gaqmod 1 and 8 to 16 in gaqmod 2, five for three of them in gaqmod 3.
#[test]
fn which_hebaps_have_gains() {
    for hebap in 8..=19 {
        let plain = 2 + 6 * mantissa_bits(hebap);
        let [one, two] = [hebap <= 11, hebap <= 16].map(usize::from);
        assert_eq!(told("01", &[hebap]), [0, plain + one, 0], "{hebap}");
        assert_eq!(told("10", &[hebap]), [0, plain + two, 0], "{hebap}");
        assert_eq!(told("11", &[hebap]), [0, plain + 5 * two, 0], "{hebap}");
    }
    for (bins, words) in [(1, 1), (2, 1), (3, 1), (4, 2), (6, 2), (7, 3)] {
        let hebap = vec![8; bins];
        assert_eq!(told("11", &hebap), [0, 2 + 5 * words + 18 * bins, 0]);
    }
}

/// Hebap 8 has mantissas of 3 bits. Gain 2: 2 bits, and 2 more after the tag 10. Gain 4: 1 bit, and 3 more after the tag 1.
#[test]
fn small_mantissas_and_tags() {
    assert_eq!(told("01 0", &[8]), [0, 3 + 18, 0]);
    assert_eq!(told("01 0 100 100", &[8]), [0, 3 + 18, 0]);
    assert_eq!(told("01 1", &[8]), [0, 3 + 12, 0]);
    assert_eq!(told("01 1 11 01 00 11 01 00", &[8]), [0, 15, 0]);
    assert_eq!(told("01 1 10", &[8]), [0, 17, 1]);
    assert_eq!(told("01 1 10 10 01", &[8]), [0, 17, 1]);
    assert_eq!(told("01 1 10 10 10 10 11", &[8]), [0, 19, 2]);
    assert_eq!(told("10 1", &[8]), [0, 3 + 6, 0]);
    assert_eq!(told("10 1 1 111", &[8]), [0, 12, 1]);
    let all = "10 1 1 000 1 001 1 010 1 011 1 100 1 111";
    assert_eq!(told(all, &[8]), [0, 3 + 24, 6]);
    // Hebap 16 has 11 bits: 10 and 10, or 9 and 11.
    assert_eq!(told("11 01001 1000000000", &[16]), [0, 7 + 60 + 10, 1]);
    assert_eq!(told("11 10010 100000000", &[16]), [0, 7 + 54 + 11, 1]);
    assert_eq!(told("11 10010 100000001", &[16]), [0, 7 + 54, 0]);
}

/// A composite gain has three digits, the first bin's first: 0 for gain 1, 1 for gain 2, 2 for gain 4.
#[test]
fn composite_gains() {
    let widths = [18, 12, 6];
    for word in 0..27 {
        let digits = [word / 9, word / 3 % 3, word % 3];
        let of_bins = digits.map(|digit| widths[digit]);
        for bins in 1..=3 {
            let width: usize = of_bins[..bins].iter().sum();
            let bits = format!("11 {word:05b}");
            assert_eq!(told(&bits, &vec![8; bins]), [0, 7 + width, 0]);
        }
    }
    for word in 27..32 {
        assert_eq!(told(&format!("11 {word:05b}"), &[8]), [25, 0, 0]);
    }
    // The fourth bin has the second word: 1, 1, 1 and 4; and bins without a gain are passed over.
    assert_eq!(told("11 00000 10010", &[8; 4]), [0, 12 + 54 + 6, 0]);
    assert_eq!(
        told("11 00010", &[8, 17, 0, 8, 3, 8]),
        [0, 7 + 18 + 72 + 18 + 4 + 6, 0]
    );
    assert_eq!(told("11 00000 11011", &[8; 4]), [25, 0, 0]);
    assert_eq!(told("11 00000 11011", &[8; 3]), [0, 7 + 54, 0]);
}

/// One mantissa's bit is another, and the end and the tags are too.
#[test]
fn mantissas_steer() {
    assert_eq!(told("10 1 0 000", &[8, 1]), [0, 11, 0]);
    assert_eq!(told("10 1 1 000", &[8, 1]), [0, 14, 1]);
}

#[test]
fn ranges() {
    let data = [0; 9];
    let hebap = [20, 8, 1, 255];
    let of = |first, past| of(&data, 3, 72, &hebap, first, past);
    assert_eq!(of(1, 3), [0, 5 + 18 + 2, 0]);
    assert_eq!(of(1, 2), [0, 5 + 18, 0]);
    assert_eq!(of(2, 3), [0, 7, 0]);
    assert_eq!(of(0, 1), [26, 0, 0]);
    assert_eq!(of(1, 4), [26, 0, 0]);
    for (first, past) in [
        (0, 0),
        (1, 1),
        (4, 4),
        (3, 1),
        (5, 4),
        (9, 0),
        (usize::MAX, 4),
    ] {
        assert_eq!(of(first, past), [0, 5, 0], "{first} {past}");
    }
    for past in [5, 6, 300, 1 << 32, usize::MAX] {
        for first in [0, 4, 5, past, usize::MAX] {
            assert_eq!(of(first, past), [27, 0, 0], "{first} {past}");
        }
    }
}

#[test]
fn ends() {
    let data = [0; 3];
    // 2 + 18 bits from bit 4 on end with the data.
    assert_eq!(of(&data, 4, 24, &[8], 0, 1), [0, 24, 0]);
    assert_eq!(of(&data, 4, usize::MAX, &[8], 0, 1), [0, 24, 0]);
    assert_eq!(of(&data, 4, 23, &[8], 0, 1), [6, 0, 0]);
    assert_eq!(of(&data, 5, usize::MAX, &[8], 0, 1), [6, 0, 0]);
    assert_eq!(of(&data, 3, 23, &[8], 0, 1), [0, 23, 0]);
    assert_eq!(of(&data, 22, 24, &[], 0, 0), [0, 24, 0]);
    for (at, end) in [
        (23, 24),
        (24, 24),
        (25, 24),
        (22, 23),
        (0, 1),
        (0, 0),
        (9, 3),
    ] {
        assert_eq!(of(&data, at, end, &[], 0, 0), [6, 0, 0], "{at} {end}");
    }
    assert_eq!(of(&[], 0, usize::MAX, &[], 0, 0), [6, 0, 0]);
    for far in 0..20 {
        let at = usize::MAX - far;
        for end in [8, 24, at, usize::MAX] {
            assert_eq!(of(&data, at, end, &[8], 0, 1), [6, 0, 0], "{at} {end}");
        }
    }
}

/// 27 before all; the others in the order of reading.
#[test]
fn refusals_in_their_order() {
    let bad_gain = bytes("11 11111 000 000 000 000 000 000");
    let hebap = [8, 20];
    let of = |end, hebap, past| of(&bad_gain, 0, end, hebap, 0, past);
    assert_eq!(of(32, &hebap, 3), [27, 0, 0]);
    assert_eq!(of(0, &hebap, 3), [27, 0, 0]);
    assert_eq!(of(32, &hebap, 2), [25, 0, 0]);
    assert_eq!(of(7, &hebap, 2), [25, 0, 0]);
    assert_eq!(of(6, &hebap, 2), [6, 0, 0]);
    // A wrong hebap is met at its bin: what stands before it must fit, and nothing of it.
    let good_gain = bytes("11 00000 000 000 000 000 000 000");
    let of = |end, hebap: &[u8]| of_all(&good_gain, end, hebap);
    assert_eq!(of(25, &[8, 20]), [26, 0, 0]);
    assert_eq!(of(24, &[8, 20]), [6, 0, 0]);
    assert_eq!(of(7, &[20, 8]), [26, 0, 0]);
    assert_eq!(of(6, &[20, 8]), [6, 0, 0]);
    assert_eq!(of(2, &[20]), [26, 0, 0]);
    assert_eq!(of(1, &[20]), [6, 0, 0]);
    assert_eq!(of(2, &[255, 20]), [26, 0, 0]);
}

fn of_all(data: &[u8], end: usize, hebap: &[u8]) -> AhtAnswer {
    of(data, 0, end, hebap, 0, hebap.len())
}

/// What the published function cannot take: bins that are not there, and sums that 64 bits do not count. With an empty range it does not
/// look at the end bin, which is 27 all the same.
#[test]
fn what_the_published_function_cannot_take() {
    let asked = |at, first, past| Asked {
        data: &[0; 9],
        at,
        end: 72,
        hebap: &[8],
        first,
        past,
    };
    for (at, first, past) in [(0, 0, 2), (usize::MAX, 0, 1), (usize::MAX - 1, 0, 0)] {
        let asked = asked(at, first, past);
        assert!(!can_be_published(&asked));
        assert!(catch_unwind(|| published(&asked)).is_err(), "{asked:?}");
    }
    let empty = asked(0, 2, 2);
    assert!(!can_be_published(&empty));
    assert_eq!(published(&empty).0, [0, 2, 0]);
    assert_eq!(answer(empty).1, [27, 0, 0]);
    let last = asked(usize::MAX - 2, 0, 1);
    assert!(can_be_published(&last));
    assert_eq!(published(&last).0, [6, 0, 0]);
}

/// No allocation leads to refusal 26; `usual` sections are whole.
#[test]
fn hebaps_of_allocations() {
    assert_eq!(HEBAP.iter().max(), Some(&19));
    let mut rng = Rng(1);
    let mut seen = [0; 20];
    for round in 0..1000 {
        let hebap = allocated(&mut rng);
        hebap.iter().for_each(|h| seen[usize::from(*h)] += 1);
        let (data, hebap) = usual(&mut rng, round % 4);
        let answer = of_all(&data, 8 * data.len(), &hebap);
        assert_eq!(answer[0], 0);
        assert_eq!(answer[1].div_ceil(8), data.len());
    }
    assert!(seen.iter().all(|times| *times > 0), "{seen:?}");
}

/// The generator reaches all that it is to reach; a disagreement with the published function, or with what it knows beforehand, would stop
/// it.
#[test]
fn every_goal_is_reached() {
    let (mut taken, mut calls) = (0, 0);
    let mut count = |case: &Case<'_>| {
        calls += 1;
        taken += usize::from(can_be_published(&case.asked));
    };
    let mut sections = Sections::new(1, &mut count);
    sections.run(2);
    assert_eq!(sections.missed(), Vec::<String>::new());
    println!("{calls} calls, of which the published function can take {taken}");
    assert!(taken > calls / 10 * 9);
}

/// Walks with one slip each. The generator's calls must tell each from the judge.
const SLIPS: [&str; 62] = [
    "gaqmod's bits exchanged",
    "an empty range has no gaqmod",
    "a reversed range turned round",
    "the last bin left out",
    "a bin more",
    "from bin 0 on",
    "gains sent for bins before the range",
    "gains from hebap 7 on",
    "gains from hebap 9 on",
    "gaqmod 1 to hebap 12",
    "gaqmod 1 to hebap 10",
    "gaqmod 1 to hebap 16",
    "gaqmod 2 to hebap 11",
    "gaqmod 2 to hebap 15",
    "gaqmod 2 to hebap 17",
    "gaqmod 3 to hebap 11",
    "gaqmod 3 to hebap 15",
    "gaqmod 3 to hebap 17",
    "gains sent in gaqmod 0",
    "gain 4 in gaqmod 1",
    "gain 2 in gaqmod 2",
    "bit 0 is the greater gain",
    "digits in the other order",
    "one gain for all three",
    "digit 2 is gain 2",
    "a word for each gain",
    "a word for four gains",
    "no word for a rest",
    "a word for no gains",
    "composite 26 refused",
    "composite 27 taken",
    "composite refused by its last digits alone",
    "the first gain for all",
    "a gain more for hebap 17 and above",
    "a gain more for hebap 1 to 7",
    "small of gain 2 a bit longer",
    "small of gain 4 a bit longer",
    "large of gain 2 a bit longer",
    "large of gain 4 a bit shorter",
    "large of gain 4 two bits shorter",
    "tag 0",
    "tag of ones",
    "tag by its first bit alone",
    "a tag counted for gain 1",
    "tags counted once for a bin",
    "tags counted for gain 2 alone",
    "no large mantissa after the sixth",
    "five blocks",
    "vector index for each block",
    "vector index of hebap 5 of 6 bits",
    "hebap 18 of 13 bits",
    "hebap 19 of 15 bits",
    "26 for hebap 19",
    "26 from hebap 32 on",
    "26 before gains",
    "26 after all bins",
    "27 for the array's length",
    "27 for ranges with bins alone",
    "27 after gaqmod",
    "6 a bit early",
    "6 by the given end alone",
    "6 by 64 bits",
];

/// The walk again, with a slip. Bits past the data are 0.
fn slipped(slip: &str, asked: &Asked<'_>) -> AhtAnswer {
    let refused = match walk(slip, asked) {
        Ok(answer) => return answer,
        Err(refused) => refused,
    };
    [refused, 0, 0]
}

struct Bits<'a> {
    slip: &'a str,
    asked: &'a Asked<'a>,
    at: u128,
}

impl Bits<'_> {
    fn read(&mut self, width: usize) -> Result<usize, usize> {
        let bits = 8 * self.asked.data.len() as u128;
        let mut limit = bits.min(self.asked.end as u128);
        let mut end = self.at + width as u128;
        match self.slip {
            "6 a bit early" => limit = limit.saturating_sub(1),
            "6 by the given end alone" => limit = self.asked.end as u128,
            "6 by 64 bits" => end %= 1 << 64,
            _ => {}
        }
        if end > limit {
            return Err(6);
        }
        let bit = |at: u128| {
            let byte = self.asked.data.get((at / 8) as usize).unwrap_or(&0);
            usize::from(byte >> (7 - at % 8) & 1)
        };
        let value = (self.at..self.at + width as u128).fold(0, |value, at| 2 * value + bit(at));
        self.at = end;
        Ok(value)
    }
}

fn walk(slip: &str, asked: &Asked<'_>) -> Result<AhtAnswer, usize> {
    let is = |what: &str| slip == what;
    let (mut first, mut past) = (asked.first, asked.past);
    let length = asked.hebap.len();
    if is("a reversed range turned round") && first > past {
        (first, past) = (past, first);
    }
    let above = past > length
        || is("27 for the array's length") && past == length
        || is("a reversed range turned round") && asked.past > length;
    let above = above && !(is("27 for ranges with bins alone") && first >= past);
    if above && !is("27 after gaqmod") {
        return Err(27);
    }
    let mut bits = Bits {
        slip,
        asked,
        at: asked.at as u128,
    };
    if is("an empty range has no gaqmod") && first >= past {
        return Ok([0, asked.at, 0]);
    }
    let mut gaqmod = bits.read(2)?;
    if above {
        return Err(27);
    }
    if is("gaqmod's bits exchanged") {
        gaqmod = gaqmod % 2 * 2 + gaqmod / 2;
    }
    match slip {
        "the last bin left out" => past = past.saturating_sub(1),
        "a bin more" => past = (past + 1).min(length),
        "from bin 0 on" => first = 0,
        _ => {}
    }
    let bins = asked.hebap.get(first..past).unwrap_or(&[]);
    let active = |hebap: u8| {
        let (mut low, mut high) = (8, if gaqmod < 2 { 11 } else { 16 });
        match slip {
            "gains from hebap 7 on" => low = 7,
            "gains from hebap 9 on" => low = 9,
            _ => {}
        }
        if let Some((mode, last)) = slip
            .strip_prefix("gaqmod ")
            .and_then(|rest| rest.split_once(" to hebap "))
        {
            if mode == gaqmod.to_string() {
                high = last.parse().unwrap();
            }
        }
        (low..=high).contains(&hebap) && (gaqmod > 0 || is("gains sent in gaqmod 0"))
    };
    let counted = match slip {
        "gains sent for bins before the range" => asked.hebap.get(..past).unwrap_or(&[]),
        _ => bins,
    };
    let sent = counted.iter().filter(|hebap| active(**hebap)).count();
    if is("26 before gains") && bins.iter().any(|hebap| *hebap > 19) {
        return Err(26);
    }
    let words = match gaqmod {
        3 => match slip {
            "a word for each gain" => sent,
            "a word for four gains" => sent.div_ceil(4),
            "no word for a rest" => sent / 3,
            "a word for no gains" => sent.div_ceil(3).max(1),
            _ => sent.div_ceil(3),
        },
        _ => sent,
    };
    let mut gains = Vec::new();
    for _ in 0..words {
        if gaqmod < 3 {
            let bit = bits.read(1)? ^ usize::from(is("bit 0 is the greater gain"));
            let greater = match (gaqmod, slip) {
                (1, "gain 4 in gaqmod 1") => 4,
                (2, "gain 2 in gaqmod 2") => 2,
                (mode, _) => 1 << mode,
            };
            gains.push(if bit == 1 { greater } else { 1 });
            continue;
        }
        let word = bits.read(5)?;
        let wrong = match slip {
            "composite 26 refused" => word > 25,
            "composite 27 taken" => word > 27,
            "composite refused by its last digits alone" => word > 26 && word % 9 > 2,
            _ => word > 26,
        };
        if wrong {
            return Err(25);
        }
        let mut digits = match slip {
            "one gain for all three" => [word / 9; 3],
            _ => [word / 9, word % 9 / 3, word % 3],
        };
        if is("digits in the other order") {
            digits.reverse();
        }
        gains.extend(digits.map(|digit| match digit {
            2 if is("digit 2 is gain 2") => 2,
            digit => 1 << digit,
        }));
    }
    let (mut tags, mut next) = (0, 0);
    let mut late: Result<(), usize> = Ok(());
    for &hebap in bins {
        let h = usize::from(hebap);
        let wrong = match slip {
            "26 for hebap 19" => h > 18,
            "26 from hebap 32 on" => h > 31,
            _ => h > 19,
        };
        if wrong && is("26 after all bins") {
            late = Err(26);
            continue;
        }
        if wrong {
            return Err(26);
        }
        if h < 8 {
            let width = match (h, slip) {
                (5, "vector index of hebap 5 of 6 bits") => 6,
                _ => [0, 2, 3, 4, 5, 7, 8, 9][h],
            };
            let times = if is("vector index for each block") {
                6
            } else {
                1
            };
            for _ in 0..times {
                bits.read(width)?;
            }
            if is("a gain more for hebap 1 to 7") && h > 0 {
                next += 1;
            }
            continue;
        }
        let m = match (h, slip) {
            (18, "hebap 18 of 13 bits") => 13,
            (19, "hebap 19 of 15 bits") => 15,
            (20.., _) => 16,
            _ => mantissa_bits(hebap),
        };
        let mut gain = 1;
        if active(hebap) {
            let place = if is("the first gain for all") {
                0
            } else {
                next
            };
            gain = gains.get(place).copied().unwrap_or(1);
            next += 1;
        } else if is("a gain more for hebap 17 and above") && h > 16 {
            next += 1;
        }
        let mut of_bin = 0;
        let blocks = if is("five blocks") { 5 } else { 6 };
        for block in 0..blocks {
            if gain == 1 {
                let value = bits.read(m)?;
                of_bin += usize::from(is("a tag counted for gain 1") && value == 1 << (m - 1));
                continue;
            }
            let small = match (gain, slip) {
                (2, "small of gain 2 a bit longer") => m,
                (2, _) => m - 1,
                (_, "small of gain 4 a bit longer") => m - 1,
                _ => m - 2,
            };
            let large = match (gain, slip) {
                (2, "large of gain 2 a bit longer") => m,
                (2, _) => m - 1,
                (_, "large of gain 4 a bit shorter") => m - 1,
                (_, "large of gain 4 two bits shorter") => m - 2,
                _ => m,
            };
            let value = bits.read(small)?;
            let tag = match slip {
                "tag 0" => value == 0,
                "tag of ones" => value == (1 << small) - 1,
                "tag by its first bit alone" => value >> (small - 1) == 1,
                _ => value == 1 << (small - 1),
            };
            if tag && !(is("no large mantissa after the sixth") && block == 5) {
                bits.read(large)?;
            }
            of_bin += usize::from(tag && !(is("tags counted for gain 2 alone") && gain == 4));
        }
        tags += match slip {
            "tags counted once for a bin" => of_bin.min(1),
            _ => of_bin,
        };
    }
    late?;
    Ok([0, bits.at as usize, tags])
}

#[test]
fn slips_are_noticed() {
    let mut noticed = vec![false; SLIPS.len()];
    let mut without = 0usize;
    let mut compare = |case: &Case<'_>| {
        without += usize::from(slipped("none", &case.asked) != case.answer);
        for (slip, noticed) in SLIPS.iter().zip(&mut noticed) {
            // Once is enough.
            *noticed = *noticed || slipped(slip, &case.asked) != case.answer;
        }
    };
    Sections::new(1, &mut compare).run(1);
    assert_eq!(without, 0, "without a slip nothing differs");
    for (slip, noticed) in SLIPS.iter().zip(noticed) {
        assert!(noticed, "{slip}");
    }
}

/// Which hebaps have gains, as the published text says it.
#[test]
fn the_published_text_has_these_bounds() {
    let text = include_str!("../ddpmeta/blocks.rs");
    assert!(text.contains("let endbap = if gaqmod < 2 { 12 } else { 17 };"));
    assert!(text.contains(".filter(|&b| hebap[b] > 7 && hebap[b] < endbap)"));
    let of = |gaqmod| {
        (0..=255)
            .filter(|h| has_gain(gaqmod, *h))
            .collect::<Vec<u8>>()
    };
    assert_eq!(of(0), []);
    assert_eq!(of(1), [8, 9, 10, 11]);
    assert_eq!(of(2), [8, 9, 10, 11, 12, 13, 14, 15, 16]);
    assert_eq!(of(3), of(2));
}
