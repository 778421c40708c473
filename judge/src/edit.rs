//! Which values may be edited, and the writing of one: from the words of their description and not from the port.
//!
//! For any accepted frame, other values of the same width in fields of the listed names alone give an accepted frame whose rows differ in
//! those values and in nothing else. (`edit_cases` tries it on the original.)

use crate::names::{number, COUNT};
use std::sync::OnceLock;

/// The list, word by word, and the names that each word means. The flags that announce a value are not among them.
#[rustfmt::skip]
pub const LISTED: [(&str, &[&str]); 24] = [
    ("crc1", &["crc1"]),
    ("bsmod", &["bsmod"]),
    ("the mix levels", &["cmixlev", "surmixlev"]),
    ("dsurmod", &["dsurmod"]),
    ("dialnorm", &["dialnorm"]),
    ("compr", &["compr"]),
    ("langcod", &["langcod"]),
    ("mixlevel", &["mixlevel"]),
    ("roomtyp", &["roomtyp"]),
    ("copyrightb", &["copyrightb"]),
    ("origbs", &["origbs"]),
    ("time codes", &["timecod1", "timecod2"]),
    ("the Annex D values behind xbsi1e", &["dmixmod", "ltrtcmixlev", "ltrtsurmixlev", "lorocmixlev", "lorosurmixlev"]),
    ("and xbsi2e", &["dsurexmod", "dheadphonmod", "adconvtyp", "xbsi2", "encinfo"]),
    ("blksw", &["blksw"]),
    ("dithflag", &["dithflag"]),
    ("dynrng", &["dynrng"]),
    ("mstrcplco", &["mstrcplco"]),
    ("cplcoexp", &["cplcoexp"]),
    ("cplcomant", &["cplcomant"]),
    ("phsflg", &["phsflg"]),
    ("rematflg", &["rematflg"]),
    ("gainrng", &["gainrng"]),
    ("their second-programme twins", &["dialnorm2", "compr2", "langcod2", "mixlevel2", "roomtyp2", "dynrng2"]),
];

/// True for the numbers of the listed names, and for no other number.
pub fn editable(name: usize) -> bool {
    static LIST: OnceLock<[bool; COUNT + 1]> = OnceLock::new();
    let list = LIST.get_or_init(|| {
        let mut list = [false; COUNT + 1];
        for name in LISTED.iter().flat_map(|(_, names)| names.iter()) {
            list[number(name) as usize] = true;
        }
        list
    });
    list.get(name).is_some_and(|listed| *listed)
}

pub const WRONG_WIDTH: u8 = 57;
pub const PAST_THE_END: u8 = 58;
pub const TOO_LARGE: u8 = 59;

/// The widest value.
pub const WIDEST: usize = 16;

/// Writes a value of `width` bits at bit `position` of what begins at byte `place`, most significant bit first, bit by bit. Gives 0, or the
/// first refusal, and then no bit is written.
pub fn set(capture: &mut [u8], place: usize, position: usize, width: usize, value: usize) -> u8 {
    if width < 1 || width > WIDEST {
        return WRONG_WIDTH;
    }
    // No sum of these overflows 128 bits.
    let first = 8 * place as u128 + position as u128;
    if first + width as u128 > 8 * capture.len() as u128 {
        return PAST_THE_END;
    }
    if value >= 1 << width {
        return TOO_LARGE;
    }
    for i in 0..width {
        let one = value / (1 << (width - 1 - i)) % 2 == 1;
        let at = first as usize + i;
        let weight = [128, 64, 32, 16, 8, 4, 2, 1][at % 8];
        let byte = &mut capture[at / 8];
        let was_one = *byte / weight % 2 == 1;
        match (was_one, one) {
            (false, true) => *byte += weight,
            (true, false) => *byte -= weight,
            _ => {}
        }
    }
    0
}
