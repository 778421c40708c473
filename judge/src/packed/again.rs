//! The same answers derived a second time, not by reading on but from what whole lines and whole numbers are: a line is right exactly when
//! what it says, printed again, is that line; a beginning is one of a right line exactly when something behind it makes it right. A packed
//! form is cut at the bytes below 128, and each piece is looked at as a whole.

use super::{ENDS, GREATEST, LEAST, LEFT_OVER, MALFORMED, NEEDLESS, TOO_LARGE, WRONG};
use crate::layout::ROW;

/// The words of a last line with their counts of numbers, by what stands for them.
const WORDS: [(&str, usize); 2] = [("audio", 3), ("refused", 5)];

/// What a right line says: the word of a last line, and the numbers.
type Line = (Option<usize>, Vec<i64>);

fn printed((word, numbers): &Line) -> String {
    let numbers: Vec<String> = numbers.iter().map(i64::to_string).collect();
    match word {
        Some(word) => format!("{} {}\n", WORDS[*word].0, numbers.join(" ")),
        None => numbers.join(" ") + "\n",
    }
}

/// What a line says, if it is right. (Rust's own reading of a number takes `+1`, `-0` and `01`; printing it again does not give them.)
fn line(line: &str) -> Option<Line> {
    let mut parts: Vec<&str> = line.strip_suffix('\n')?.split(' ').collect();
    let word = WORDS.iter().position(|(word, _)| *word == parts[0]);
    let wanted = match word {
        Some(word) => {
            parts.remove(0);
            WORDS[word].1
        }
        None => ROW,
    };
    let numbers: Vec<i64> = parts
        .iter()
        .map(|part| part.parse().ok())
        .collect::<Option<_>>()?;
    let said = (word, numbers);
    let within = said.1.iter().all(|n| (LEAST..=GREATEST).contains(n));
    (said.1.len() == wanted && within && printed(&said) == line).then_some(said)
}

/// Whether something behind it makes it a right line.
fn begins(start: &[u8]) -> bool {
    let Ok(start) = std::str::from_utf8(start) else {
        return false;
    };
    let behind = |tail: &str, numbers: usize| {
        let whole = format!("{start}{tail}{}\n", " 0".repeat(numbers));
        line(&whole).is_some()
    };
    WORDS.iter().any(|(word, _)| word.starts_with(start))
        || line(start).is_some()
        || (0..=ROW).any(|n| behind("", n) || behind("0", n) || behind("1", n))
}

/// Whether this ends with a number that is written as it should be but too large.
fn ends_too_large(start: &[u8]) -> bool {
    let number = start.rsplit(|b| *b == b' ').next().unwrap_or(start);
    let digits = number.iter().all(u8::is_ascii_digit);
    let too_large = |text: &str| text.parse::<u128>().is_ok_and(|n| n > GREATEST as u128);
    digits && number.first() != Some(&b'0') && std::str::from_utf8(number).is_ok_and(too_large)
}

/// The refusal of a text, or its packed form.
pub fn pack(text: &[u8]) -> Result<Vec<u8>, usize> {
    let (mut rest, mut rows, mut numbers) = (text, 0i64, Vec::new());
    loop {
        let length = rest.iter().position(|b| *b == b'\n').map(|at| at + 1);
        let whole = length.and_then(|length| line(std::str::from_utf8(&rest[..length]).ok()?));
        match whole {
            Some((None, row)) => {
                rows += 1;
                numbers.extend(row);
                rest = &rest[length.expect("a line")..];
            }
            Some((Some(word), last)) => {
                if rest.len() > length.expect("a line") {
                    return Err(LEFT_OVER);
                }
                let all = [vec![rows], numbers, vec![word as i64], last].concat();
                return Ok(all.into_iter().flat_map(stored).collect());
            }
            None => {
                let candidate = &rest[..length.unwrap_or(rest.len())];
                // Every beginning of a beginning is one.
                let lengths: Vec<usize> = (1..=candidate.len()).collect();
                let good = lengths.partition_point(|n| begins(&candidate[..*n]));
                return Err(match lengths.get(good) {
                    None => ENDS,
                    Some(bad) if ends_too_large(&candidate[..*bad]) => TOO_LARGE,
                    Some(_) => MALFORMED,
                });
            }
        }
    }
}

/// The groups of a number, found from its size.
pub fn stored(number: i64) -> Vec<u8> {
    let stored = number + 1;
    let groups = (1..).find(|n| stored < 1 << (7 * n)).expect("few");
    let group = |i| (stored >> (7 * i)) as u8 & 127;
    let mut bytes: Vec<u8> = (0..groups).map(|i| group(i) | 128).collect();
    bytes[groups - 1] &= 127;
    bytes
}

/// What a piece stores, or why it is refused.
fn piece(bytes: &[u8]) -> Result<i64, usize> {
    let groups = bytes.iter().enumerate().rev();
    let total = groups.fold(0u128, |sum, (at, byte)| {
        let group = u128::from(byte & 127);
        sum.saturating_add(group << (7 * at.min(17)))
    });
    let last = bytes[bytes.len() - 1];
    if total > GREATEST as u128 + 1 {
        Err(TOO_LARGE)
    } else if last >= 128 {
        Err(ENDS)
    } else if last == 0 && bytes.len() > 1 {
        Err(NEEDLESS)
    } else {
        let number = total as i64 - 1;
        assert_eq!(stored(number), bytes);
        Ok(number)
    }
}

/// The refusal of a packed form, or its text.
pub fn unpack(packed: &[u8]) -> Result<Vec<u8>, usize> {
    let mut pieces = packed.split_inclusive(|b| *b < 128);
    let mut next = || piece(pieces.next().ok_or(ENDS)?);
    let rows = next()?;
    if rows == -1 {
        return Err(WRONG);
    }
    let mut text = String::new();
    for _ in 0..rows {
        let row = (0..ROW).map(|_| next()).collect::<Result<_, _>>()?;
        text += &printed(&(None, row));
    }
    let kind = next()?;
    let word = WORDS.iter().enumerate().find(|(i, _)| *i as i64 == kind);
    let (word, (_, numbers)) = word.ok_or(WRONG)?;
    let last = (0..*numbers).map(|_| next()).collect::<Result<_, _>>()?;
    text += &printed(&(Some(word), last));
    match pieces.next() {
        Some(_) => Err(LEFT_OVER),
        None => Ok(text.into_bytes()),
    }
}
