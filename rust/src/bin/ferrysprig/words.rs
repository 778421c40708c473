//! Words for what the numbers mean to people.

use ferrysprig::{Field, Role};

/// A frame in a line: where, how long, which channels, which rate.
pub fn frame(place: usize, bytes: usize, acmod: u8, lfeon: bool, fscod: u8) -> String {
    let channels = channels(acmod, lfeon);
    let rate = rate(fscod);
    format!("frame at byte {place}: {bytes} bytes, {channels}, {rate}")
}

/// Front and rear channels, and LFE.
fn channels(acmod: u8, lfeon: bool) -> String {
    let modes = ["1+1", "1/0", "2/0", "3/0", "2/1", "3/1", "2/2", "3/2"];
    let mode = modes.get(usize::from(acmod)).unwrap_or(&"?");
    match lfeon {
        true => format!("{mode} + LFE"),
        false => mode.to_string(),
    }
}

fn rate(fscod: u8) -> &'static str {
    let rates = ["48 kHz", "44.1 kHz", "32 kHz"];
    rates.get(usize::from(fscod)).unwrap_or(&"?")
}

/// What a field means to an editor.
pub fn role(role: Role) -> &'static str {
    match role {
        Role::Plain => "-",
        Role::Sync => "sync word",
        Role::Crc1 => "first checksum",
        Role::Crc2 => "second checksum",
        Role::CrcRsv => "spare bit of the checksum",
        Role::FrameSize => "frame size",
        Role::Dialnorm(_) => "dialogue level",
        Role::ComprExists(_) => "whether compr follows",
        Role::Compr(_) => "gain word compr",
        Role::DynrngExists(_) => "whether dynrng follows",
        Role::Dynrng(_) => "gain word dynrng",
        Role::Skiple => "whether bytes are skipped",
        Role::Skipl => "how many bytes are skipped",
        Role::Skipfld => "skipped bytes",
        Role::Addbsi => "additional information",
        Role::Mantissas => "mantissas",
        Role::AuxBits => "auxiliary data",
        Role::AuxDataL => "length of the auxiliary data",
        Role::AuxDataE => "whether auxiliary data follows",
        Role::BlkStrtInfoE => "whether block starts follow",
        Role::BlkStrtInfo => "block starts",
    }
}

/// The programme that a field is for, counted from one, if it is for one.
pub fn programme(role: Role) -> Option<u32> {
    match role {
        Role::Dialnorm(programme)
        | Role::ComprExists(programme)
        | Role::Compr(programme)
        | Role::DynrngExists(programme)
        | Role::Dynrng(programme) => Some(u32::from(programme) + 1),
        _ => None,
    }
}

/// What a field says of levels, if it does.
pub fn level(field: &Field) -> Option<String> {
    let Field {
        name, value, block, ..
    } = field;
    match field.role {
        Role::Dialnorm(_) if *value == 0 => Some(format!("{name} 0 (reserved)")),
        Role::Dialnorm(_) => Some(format!("{name} {value} (-{value} dB)")),
        Role::Compr(_) => Some(format!("{name} {value:#04x} ({:+.1} dB)", gain(*value, 4))),
        Role::Dynrng(_) => {
            let gain = gain(*value, 5);
            Some(format!(
                "block {block}, {name} {value:#04x} ({gain:+.1} dB)"
            ))
        }
        _ => None,
    }
}

/// The gain of a word of eight bits in dB. Its last bits are a fraction from a half up; those before them, signed, are doublings.
fn gain(word: u32, fraction: u32) -> f64 {
    let (word, half) = (word as u8, 1 << fraction);
    let doublings = i32::from(word as i8 >> fraction) + 1;
    let part = f64::from(half + u32::from(word) % half) / f64::from(2 * half);
    let gain = 20.0 * part.log10() + 20.0 * f64::from(doublings) * 2f64.log10();
    // What is rounded to nothing has no sign.
    if gain.abs() < 0.05 {
        return 0.0;
    }
    gain
}

/// So many of something.
pub fn counted(count: usize, what: &str) -> String {
    let plural = if count == 1 { "" } else { "s" };
    format!("{count} {what}{plural}")
}

/// A list, in lines that are no longer than a terminal's, each begun with two spaces.
pub fn wrapped(words: &[String]) -> String {
    let mut text = String::new();
    let mut line = String::from(" ");
    for (at, word) in words.iter().enumerate() {
        let comma = if at + 1 < words.len() { "," } else { "" };
        if line.len() > 1 && line.len() + 1 + word.len() + comma.len() > 80 {
            text += &line;
            text += "\n";
            line = String::from(" ");
        }
        line += &format!(" {word}{comma}");
    }
    text + &line + "\n"
}

#[cfg(test)]
mod tests {
    use super::*;

    /// As is commonly known, dynrng goes from -24.08 to +23.95 dB and compr from -48.16 to +47.89 dB, and 0 is no gain.
    #[test]
    fn gains_have_their_ends_and_their_middle() {
        for (word, fraction, told) in [
            (0x00, 5, 0.0),
            (0x80, 5, -24.08),
            (0x7f, 5, 23.95),
            (0xff, 5, -0.14),
            (0x00, 4, 0.0),
            (0x80, 4, -48.16),
            (0x7f, 4, 47.89),
        ] {
            let gain = gain(word, fraction);
            assert!((gain - told).abs() < 0.005, "{word:#04x}: {gain}");
        }
    }

    #[test]
    fn lines_are_no_longer_than_a_terminals() {
        let words: Vec<String> = (0..40).map(|n| format!("name{n} {n}")).collect();
        let text = wrapped(&words);
        assert!(text
            .lines()
            .all(|line| line.len() <= 80 && line.starts_with("  ")));
        assert_eq!(text.split_whitespace().count(), 80);
        assert_eq!(wrapped(&words[..1]), "  name0 0\n");
    }
}
