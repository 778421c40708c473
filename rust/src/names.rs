//! Names, roles and refusals by their numbers (docs/NAMES.md, docs/FORMAT.md).

/// The names of the fields, as the original spells them; number n stands at place n - 1.
#[rustfmt::skip] // ten to a line
pub const NAMES: [&str; 111] = [
    "syncword", "crc1", "fscod", "frmsizecod", "bsid", "bsmod", "acmod", "cmixlev", "surmixlev", "dsurmod",
    "lfeon", "dialnorm", "compre", "compr", "langcode", "langcod", "audprodie", "mixlevel", "roomtyp", "dialnorm2",
    "compr2e", "compr2", "langcod2e", "langcod2", "audprodi2e", "mixlevel2", "roomtyp2", "copyrightb", "origbs", "xbsi1e",
    "dmixmod", "ltrtcmixlev", "ltrtsurmixlev", "lorocmixlev", "lorosurmixlev", "xbsi2e", "dsurexmod", "dheadphonmod", "adconvtyp", "xbsi2",
    "encinfo", "timecod1e", "timecod1", "timecod2e", "timecod2", "addbsie", "addbsil", "addbsi", "blksw", "dithflag",
    "dynrnge", "dynrng", "dynrng2e", "dynrng2", "cplstre", "cplinu", "chincpl", "phsflginu", "cplbegf", "cplendf",
    "cplbndstrc", "cplcoe", "mstrcplco", "cplcoexp", "cplcomant", "phsflg", "rematstr", "rematflg", "cplexpstr", "chexpstr",
    "lfeexpstr", "chbwcod", "cplabsexp", "cplexps", "exps[ch][0]", "exps[ch]", "gainrng", "lfeexps[0]", "lfeexps", "baie",
    "sdcycod", "fdcycod", "sgaincod", "dbpbcod", "floorcod", "snroffste", "csnroffst", "cplfsnroffst", "cplfgaincod", "fsnroffst",
    "fgaincod", "lfefsnroffst", "lfefgaincod", "cplleake", "cplfleak", "cplsleak", "deltbaie", "cpldeltbae", "deltbae", "cpldeltnseg",
    "cpldeltoffst", "cpldeltlen", "cpldeltba", "deltnseg", "deltoffst", "deltlen", "deltba", "skiple", "skipl", "skipfld",
    "mantissas",
];

/// What each refusal of a frame means; number n stands at place n - 1.
pub const REFUSALS: &[&str] = &[
    "the input has fewer than 6 bytes",
    "the sync word is not 0x0B77",
    "fscod is 3, or frmsizecod is 38 or more",
    "the input is shorter than the frame",
    "bsid is above 8",
    "a field, span or mantissa would end past the frame",
    "no row is left",
    "block 0 has cplstre 0",
    "cplbegf is above cplendf + 2",
    "coupling with fewer than two channels",
    "chbwcod is above 60",
    "a channel's bandwidth was never sent",
    "coupling exponents are reused, but were never sent or stand for another range",
    "a channel's exponents are reused, but were never sent or have another end",
    "LFE exponents are reused, but were never sent",
    "a grouped exponent is above 124",
    "an exponent is outside 0 to 24 after a step",
    "cpldeltbae or deltbae is 0 in block 0",
    "cpldeltbae or deltbae is 3",
    "the coupling leak is needed, but was never sent",
    "block 0 has rematstr 0",
    "block 0 has baie 0",
    "block 0 has snroffste 0",
];

/// The refusal of a header answer, given to the blocks, that is not the header's.
const OTHER_HEADER: u8 = 24;

/// What a refusal of a frame, or of a header answer, means, by its number.
pub(crate) fn meaning(refusal: u8) -> &'static str {
    if refusal == OTHER_HEADER {
        return "the header answer does not fit the input";
    }
    usize::from(refusal)
        .checked_sub(1)
        .and_then(|n| REFUSALS.get(n))
        .unwrap_or(&"no refusal has this number")
}

/// What an element means to the metadata editor. Everything not listed is `Plain`. A number that a role carries is the programme: 0 for the
/// first or only one, 1 for the second.
///
/// The parser gives no `Crc2`, `CrcRsv`, `AuxBits`, `AuxDataL` or `AuxDataE` (they stand after `audio_end`), and no `BlkStrtInfoE` or
/// `BlkStrtInfo` (they are E-AC-3's). They are here as in the original, so that a caller's tail can be appended to the fields. The list is
/// the original's whole list, so it is not marked `non_exhaustive`.
///
/// ```
/// use ferrysprig::Role;
///
/// assert!(Role::Dynrng(0).is_drc() && Role::ComprExists(1).is_drc() && !Role::Dialnorm(0).is_drc());
/// assert!(Role::Crc1.is_checksum() && Role::Mantissas.is_span());
/// ```
#[derive(Clone, Copy, Debug, PartialEq, Eq, Hash)]
pub enum Role {
    /// Any other element.
    Plain,
    /// syncword.
    Sync,
    /// crc1.
    Crc1,
    /// crc2, the last word of the tail.
    Crc2,
    /// crcrsv, the bit before crc2.
    CrcRsv,
    /// fscod and frmsizecod.
    FrameSize,
    /// dialnorm or dialnorm2.
    Dialnorm(u8),
    /// compre or compr2e.
    ComprExists(u8),
    /// compr or compr2.
    Compr(u8),
    /// dynrnge or dynrng2e.
    DynrngExists(u8),
    /// dynrng or dynrng2.
    Dynrng(u8),
    /// skiple.
    Skiple,
    /// skipl.
    Skipl,
    /// A block's skip bytes, one span.
    Skipfld,
    /// The additional information's bytes, one span.
    Addbsi,
    /// Every mantissa of a block, one span.
    Mantissas,
    /// auxbits, one span from the end of the audio on.
    AuxBits,
    /// auxdatal.
    AuxDataL,
    /// auxdatae.
    AuxDataE,
    /// blkstrtinfoe.
    BlkStrtInfoE,
    /// blkstrtinfo.
    BlkStrtInfo,
}

impl Role {
    /// Elements that hold a gain word or its presence flag.
    #[must_use]
    pub fn is_drc(self) -> bool {
        matches!(
            self,
            Role::ComprExists(_) | Role::Compr(_) | Role::DynrngExists(_) | Role::Dynrng(_)
        )
    }

    /// Elements whose value is a whole-frame checksum: after any edit of the frame they are wrong until they are computed anew.
    #[must_use]
    pub fn is_checksum(self) -> bool {
        matches!(self, Role::Crc1 | Role::Crc2)
    }

    /// Spans: their bits are not a value.
    #[must_use]
    pub fn is_span(self) -> bool {
        matches!(
            self,
            Role::Skipfld | Role::Addbsi | Role::Mantissas | Role::AuxBits
        )
    }
}

/// A role by its number and programme.
#[inline(always)]
pub(crate) fn role_of(number: i32, programme: i32) -> Role {
    match number {
        0 => Role::Plain,
        1 => Role::Sync,
        2 => Role::Crc1,
        3 => Role::Crc2,
        4 => Role::CrcRsv,
        5 => Role::FrameSize,
        6 => Role::Dialnorm(known(programme)),
        7 => Role::ComprExists(known(programme)),
        8 => Role::Compr(known(programme)),
        9 => Role::DynrngExists(known(programme)),
        10 => Role::Dynrng(known(programme)),
        11 => Role::Skiple,
        12 => Role::Skipl,
        13 => Role::Skipfld,
        14 => Role::Addbsi,
        15 => Role::Mantissas,
        16 => Role::AuxBits,
        17 => Role::AuxDataL,
        18 => Role::AuxDataE,
        19 => Role::BlkStrtInfoE,
        20 => Role::BlkStrtInfo,
        _ => unknown(number),
    }
}

/// A number of the archive's in the type that has room for it. That it fits is proved; that the archive is the proved one is not.
#[inline(always)]
pub(crate) fn known<T: TryFrom<i32>>(number: i32) -> T {
    T::try_from(number).unwrap_or_else(|_| unknown(number))
}

/// A name by its number.
#[inline(always)]
pub(crate) fn name_of(number: i32) -> &'static str {
    let place = (number as usize).wrapping_sub(1);
    NAMES.get(place).unwrap_or_else(|| unknown(number))
}

/// A name's number.
pub(crate) fn number_of(name: &str) -> Option<usize> {
    let place = NAMES.iter().position(|known| *known == name)?;
    Some(place + 1)
}

#[cold]
#[inline(never)]
fn unknown(number: i32) -> ! {
    panic!("libferrysprig.a gave {number}, which this crate does not know")
}

#[cfg(test)]
mod tests {
    use super::*;

    #[test]
    fn roles_are_those_of_the_header() {
        let header = include_str!("../../c/ferrysprig.h");
        let (_, table) = header.split_once("#define FERRYSPRIG_ROLES {").unwrap();
        let (table, _) = table.split_once('}').unwrap();
        let said: Vec<&str> = table.split('"').skip(1).step_by(2).collect();
        let ours: Vec<String> = (0..said.len() as i32)
            .map(|n| format!("{:?}", role_of(n, 1)))
            .collect();
        let spelt: Vec<&str> = ours.iter().map(|r| r.trim_end_matches("(1)")).collect();
        assert_eq!(said, spelt);
    }
}
