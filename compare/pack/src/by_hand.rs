//! What one would write by hand to be fast, with the same answers: two passes, since a refusal writes nothing. The first reads and
//! measures, the second writes, and need not look for faults again.

use crate::layout::PackAnswer;

const ROW: usize = 9;
const GREATEST: u64 = i32::MAX as u64;

/// Reads the number at `at` and the byte that ends it: the number plus one, and where it goes on.
#[inline(always)]
fn number(text: &[u8], mut at: usize, ends: u8) -> Result<(u64, usize), usize> {
    let byte = |at: usize| text.get(at).copied().ok_or(43usize);
    let first = byte(at)?;
    at += 1;
    let digit = first.wrapping_sub(b'0');
    let stored = if digit == 0 {
        1
    } else if digit < 10 {
        let mut value = u64::from(digit);
        loop {
            let digit = byte(at)?.wrapping_sub(b'0');
            if digit > 9 {
                break;
            }
            value = 10 * value + u64::from(digit);
            if value > GREATEST {
                return Err(42);
            }
            at += 1;
        }
        value + 1
    } else if first == b'-' {
        if byte(at)? != b'1' {
            return Err(40);
        }
        at += 1;
        0
    } else {
        return Err(40);
    };
    if byte(at)? != ends {
        return Err(40);
    }
    Ok((stored, at + 1))
}

/// How many groups a stored number has.
#[inline(always)]
fn groups(stored: u64) -> usize {
    ((70 - (stored | 1).leading_zeros()) / 7) as usize
}

/// Writes a stored number to a room that is large enough; where it goes on.
#[inline(always)]
fn put(out: &mut [u8], mut at: usize, mut stored: u64) -> usize {
    while stored > 127 {
        out[at] = stored as u8 | 128;
        at += 1;
        stored >>= 7;
    }
    out[at] = stored as u8;
    at + 1
}

/// Reads a text: its rows, and the bytes of its packed form but for the row count.
fn measured(text: &[u8]) -> Result<(u64, usize), usize> {
    let (mut at, mut rows, mut bytes) = (0, 0u64, 0);
    let (word, numbers) = loop {
        match text.get(at) {
            None => return Err(43),
            Some(b'a') => break (&b"audio "[..], 3),
            Some(b'r') => break (&b"refused "[..], 5),
            Some(_) => {
                for n in 0..ROW {
                    let (stored, next) = number(text, at, if n == ROW - 1 { b'\n' } else { b' ' })?;
                    bytes += groups(stored);
                    at = next;
                }
                rows += 1;
                if rows > GREATEST {
                    return Err(42);
                }
            }
        }
    };
    for letter in word {
        match text.get(at) {
            None => return Err(43),
            Some(byte) if byte != letter => return Err(40),
            Some(_) => at += 1,
        }
    }
    bytes += 1;
    for n in 0..numbers {
        let (stored, next) = number(text, at, if n == numbers - 1 { b'\n' } else { b' ' })?;
        bytes += groups(stored);
        at = next;
    }
    if at < text.len() {
        return Err(44);
    }
    Ok((rows, bytes))
}

pub fn pack(text: &[u8], out: &mut [u8]) -> PackAnswer {
    let (rows, bytes) = match measured(text) {
        Ok(measured) => measured,
        Err(refusal) => return [refusal, 0],
    };
    let bytes = groups(rows + 1) + bytes;
    let Some(out) = out.get_mut(..bytes) else {
        return [45, 0];
    };
    let mut to = put(out, 0, rows + 1);
    let mut at = 0;
    let mut stored;
    for _ in 0..rows as usize * ROW {
        (stored, at) = known(text, at);
        to = put(out, to, stored);
    }
    let numbers = if text[at] == b'a' {
        at += b"audio ".len();
        to = put(out, to, 1);
        3
    } else {
        at += b"refused ".len();
        to = put(out, to, 2);
        5
    };
    for _ in 0..numbers {
        (stored, at) = known(text, at);
        to = put(out, to, stored);
    }
    [0, to]
}

/// A number that is known to be right: plus one, and where it goes on after the byte that ends it.
#[inline(always)]
fn known(text: &[u8], mut at: usize) -> (u64, usize) {
    if text[at] == b'-' {
        return (0, at + 3);
    }
    let mut value = 0;
    loop {
        let digit = text[at].wrapping_sub(b'0');
        at += 1;
        if digit > 9 {
            return (value + 1, at);
        }
        value = 10 * value + u64::from(digit);
    }
}

/// Reads the stored number at `at`: as it is stored, and where it goes on.
#[inline(always)]
fn stored(packed: &[u8], at: usize) -> Result<(u64, usize), usize> {
    match packed.get(at) {
        None => Err(43),
        Some(&byte) if byte < 128 => Ok((u64::from(byte), at + 1)),
        Some(_) => several(packed, at),
    }
}

/// The same of several groups.
fn several(packed: &[u8], begin: usize) -> Result<(u64, usize), usize> {
    let mut value = 0u64;
    for (which, &byte) in packed[begin..].iter().enumerate() {
        let group = u64::from(byte & 127);
        match which {
            0..=4 => value += group << (7 * which),
            _ if group > 0 => return Err(42),
            _ => {}
        }
        if value > GREATEST + 1 {
            return Err(42);
        }
        if byte < 128 {
            return if byte == 0 {
                Err(41)
            } else {
                Ok((value, begin + which + 1))
            };
        }
    }
    Err(43)
}

/// How many characters the number has that is stored so.
#[inline(always)]
fn characters(stored: u64) -> usize {
    match stored {
        0 => 2,
        1..=10 => 1,
        11..=100 => 2,
        101..=1_000 => 3,
        1_001..=10_000 => 4,
        10_001..=100_000 => 5,
        100_001..=1_000_000 => 6,
        1_000_001..=10_000_000 => 7,
        10_000_001..=100_000_000 => 8,
        100_000_001..=1_000_000_000 => 9,
        _ => 10,
    }
}

/// Reads a packed form: the bytes of its text.
fn text_bytes(packed: &[u8]) -> Result<usize, usize> {
    let (rows, mut at) = stored(packed, 0)?;
    if rows == 0 {
        return Err(46);
    }
    let mut bytes = 0;
    let mut value;
    for _ in 1..rows {
        for _ in 0..ROW {
            (value, at) = stored(packed, at)?;
            bytes += characters(value) + 1;
        }
    }
    (value, at) = stored(packed, at)?;
    let (word, numbers) = match value {
        1 => ("audio\n", 3),
        2 => ("refused\n", 5),
        _ => return Err(46),
    };
    bytes += word.len();
    for _ in 0..numbers {
        (value, at) = stored(packed, at)?;
        bytes += characters(value) + 1;
    }
    if at < packed.len() {
        return Err(44);
    }
    Ok(bytes)
}

/// A stored number that is known to be right.
#[inline(always)]
fn known_stored(packed: &[u8], mut at: usize) -> (u64, usize) {
    let mut value = u64::from(packed[at] & 127);
    let mut shift = 7;
    while packed[at] > 127 {
        at += 1;
        value |= u64::from(packed[at] & 127) << shift;
        shift += 7;
    }
    (value, at + 1)
}

/// Writes the number that is stored so; where it goes on.
#[inline(always)]
fn print(out: &mut [u8], at: usize, stored: u64) -> usize {
    if stored == 0 {
        out[at..at + 2].copy_from_slice(b"-1");
        return at + 2;
    }
    let mut value = stored - 1;
    let end = at + characters(stored);
    let mut to = end;
    while value > 9 {
        to -= 1;
        out[to] = b'0' + (value % 10) as u8;
        value /= 10;
    }
    out[at] = b'0' + value as u8;
    end
}

pub fn unpack(packed: &[u8], out: &mut [u8]) -> PackAnswer {
    let bytes = match text_bytes(packed) {
        Ok(bytes) => bytes,
        Err(refusal) => return [refusal, 0],
    };
    let Some(out) = out.get_mut(..bytes) else {
        return [45, 0];
    };
    let (rows, mut at) = known_stored(packed, 0);
    let mut to = 0;
    let mut value;
    for _ in 1..rows {
        for n in 0..ROW {
            (value, at) = known_stored(packed, at);
            to = print(out, to, value);
            out[to] = if n == ROW - 1 { b'\n' } else { b' ' };
            to += 1;
        }
    }
    let (word, numbers) = match packed[at] {
        1 => (&b"audio"[..], 3),
        _ => (&b"refused"[..], 5),
    };
    at += 1;
    out[to..to + word.len()].copy_from_slice(word);
    to += word.len();
    for _ in 0..numbers {
        out[to] = b' ';
        (value, at) = known_stored(packed, at);
        to = print(out, to + 1, value);
    }
    out[to] = b'\n';
    [0, to + 1]
}
