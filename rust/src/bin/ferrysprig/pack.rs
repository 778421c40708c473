//! `pack` and `unpack`: listings, as text and packed.

use crate::arguments::{Arguments, Command};
use crate::end::{End, Verdict};
use crate::input::Input;
use crate::output::{Holds, Output};
use ferrysprig::listing::{self, Refusal};

pub const PACK: Command = Command {
    name: "pack",
    does: "Packs the text of a listing into the binary form of a log collector.",
    operands: &["IN", "OUT"],
    options: &[],
    more: "IN is the text of one listing, as `ferrysprig list` prints it, and is held in memory.\n\
           If it is refused, OUT is not made, and what stood there stays.",
    run: pack,
};

pub const UNPACK: Command = Command {
    name: "unpack",
    does: "Makes the text of a packed listing again.",
    operands: &["IN", "OUT"],
    options: &[],
    more: "IN is one packed listing, and is held in memory.\n\
           If it is refused, OUT is not made, and what stood there stays.",
    run: unpack,
};

fn pack(given: &Arguments) -> Result<Verdict, End> {
    let mut input = Input::open(given.operand(0))?;
    let mut out = Output::of(given, &input, Holds::Bytes)?;
    let text = input.whole()?;
    let packed = listing::pack(&text).map_err(|refusal| {
        let place = met(&text, |text| listing::pack_into(text, &mut []).err());
        let line = 1 + text[..place].iter().filter(|byte| **byte == b'\n').count();
        End::refused(&input.name, place, format!("{refusal} (line {line})"))
    })?;
    out.put(&packed)?;
    out.keep()?;
    Ok(Verdict::Accepted)
}

fn unpack(given: &Arguments) -> Result<Verdict, End> {
    let mut input = Input::open(given.operand(0))?;
    let mut out = Output::of(given, &input, Holds::Text)?;
    let packed = input.whole()?;
    let text = listing::unpack(&packed).map_err(|refusal| {
        let place = met(&packed, |packed| {
            listing::unpack_into(packed, &mut []).err()
        });
        End::refused(&input.name, place, refusal)
    })?;
    out.put(&text)?;
    out.keep()?;
    Ok(Verdict::Accepted)
}

/// The byte at which a refused input is refused: the first with which no listing goes on, or the input's end. What is read before it is the
/// beginning of a listing, or a whole one, and with it it is neither; so it is found by halving.
fn met(bytes: &[u8], refusal: impl FnMut(&[u8]) -> Option<Refusal>) -> usize {
    let mut refusal = refusal;
    let (mut good, mut bad) = (0, bytes.len() + 1);
    while bad - good > 1 {
        let middle = good + (bad - good) / 2;
        match refusal(&bytes[..middle]) {
            None | Some(Refusal::Ends | Refusal::NoRoom) => good = middle,
            Some(_) => bad = middle,
        }
    }
    good
}

#[cfg(test)]
mod tests {
    use super::*;

    #[test]
    fn a_refusal_has_its_byte() {
        let place = |text: &str| met(text.as_bytes(), |t| listing::pack_into(t, &mut []).err());
        assert_eq!(place("audio 01 2 3\n"), 7);
        assert_eq!(place("audio 1 2"), 9);
        assert_eq!(place(""), 0);
        assert_eq!(place("x"), 0);
        assert_eq!(place("audio 1 2 3\nx"), 12);
        assert_eq!(
            place("1 1 -1 -1 -1 0 16 2935 -1\nrefused 7 1 16 0 -2\n"),
            44
        );
    }
}
