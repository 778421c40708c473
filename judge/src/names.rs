//! The names 1 to 111 with what is fixed about each, and the numbers of the roles.
//!
//! docs/NAMES.md is printed from this table, and `agree` holds every row of every input against it.

use crate::layout::{row_at, NO_PART};
use crate::syntax::Role;
use std::collections::HashMap;
use std::hash::{BuildHasherDefault, Hasher};
use std::sync::OnceLock;

/// How many names there are; a name's number is its place in `NAMES`, from 1.
pub const COUNT: usize = 111;

#[derive(Clone, Copy, PartialEq, Eq)]
pub enum Width {
    Bits(usize),
    /// A span; the text says what its width is.
    Span(&'static str),
}

#[derive(Clone, Copy, PartialEq, Eq)]
pub enum Index {
    None,
    /// A full bandwidth channel, 0 to 4.
    Channel,
    /// A coupling sub-band, from 1: that of sub-band 0 is not sent.
    SubBand,
    CouplingBand,
    RematrixingBand,
    /// Always 0: the coupling and LFE exponents.
    Zero,
    /// Always 5, the slot of the coupling channel: its delta segments.
    CouplingSlot,
}

#[derive(Clone, Copy, PartialEq, Eq)]
pub enum Section {
    Syncinfo,
    Bsi,
    AlternateBsi,
    Audblk,
}

/// What a row's part counts, from 0.
#[derive(Clone, Copy, PartialEq, Eq)]
pub enum Part {
    None,
    /// A coupling band: sub-bands that cplbndstrc merges are one.
    Band,
    /// A group of exponents, of at most so many: D15 over the widest range. The absolute exponent before them is none.
    Group(i32),
    /// A segment of delta bit allocation.
    Segment,
}

pub struct Name {
    pub text: &'static str,
    pub role: Role,
    pub width: Width,
    pub section: Section,
    pub index: Index,
    pub part: Part,
    /// Its value never steers the rest: an editor may write another one.
    pub free: bool,
}

const fn header(text: &'static str, bits: usize, free: bool) -> Name {
    with_role(text, Role::Plain, bits, Section::Bsi, free)
}

const fn alternate(text: &'static str, bits: usize, free: bool) -> Name {
    with_role(text, Role::Plain, bits, Section::AlternateBsi, free)
}

const fn with_role(
    text: &'static str,
    role: Role,
    bits: usize,
    section: Section,
    free: bool,
) -> Name {
    Name {
        text,
        role,
        width: Width::Bits(bits),
        section,
        index: Index::None,
        part: Part::None,
        free,
    }
}

const fn block(text: &'static str, bits: usize, index: Index, free: bool) -> Name {
    let width = Width::Bits(bits);
    Name {
        text,
        role: Role::Plain,
        width,
        section: Section::Audblk,
        index,
        part: Part::None,
        free,
    }
}

impl Name {
    const fn counted(mut self, part: Part) -> Name {
        self.part = part;
        self
    }
}

const fn span(text: &'static str, role: Role, width: &'static str, section: Section) -> Name {
    Name {
        text,
        role,
        width: Width::Span(width),
        section,
        index: Index::None,
        part: Part::None,
        free: false,
    }
}

/// The names in the order in which `parse` first reaches them.
#[rustfmt::skip]
pub const NAMES: [Name; COUNT] = [
    with_role("syncword", Role::Sync, 16, Section::Syncinfo, false),
    with_role("crc1", Role::Crc1, 16, Section::Syncinfo, true),
    with_role("fscod", Role::FrameSize, 2, Section::Syncinfo, false),
    with_role("frmsizecod", Role::FrameSize, 6, Section::Syncinfo, false),
    header("bsid", 5, false),
    header("bsmod", 3, true),
    header("acmod", 3, false),
    header("cmixlev", 2, true),
    header("surmixlev", 2, true),
    header("dsurmod", 2, true),
    header("lfeon", 1, false),
    with_role("dialnorm", Role::Dialnorm(0), 5, Section::Bsi, true),
    with_role("compre", Role::ComprExists(0), 1, Section::Bsi, false),
    with_role("compr", Role::Compr(0), 8, Section::Bsi, true),
    header("langcode", 1, false),
    header("langcod", 8, true),
    header("audprodie", 1, false),
    header("mixlevel", 5, true),
    header("roomtyp", 2, true),
    with_role("dialnorm2", Role::Dialnorm(1), 5, Section::Bsi, true),
    with_role("compr2e", Role::ComprExists(1), 1, Section::Bsi, false),
    with_role("compr2", Role::Compr(1), 8, Section::Bsi, true),
    header("langcod2e", 1, false),
    header("langcod2", 8, true),
    header("audprodi2e", 1, false),
    header("mixlevel2", 5, true),
    header("roomtyp2", 2, true),
    header("copyrightb", 1, true),
    header("origbs", 1, true),
    alternate("xbsi1e", 1, false),
    alternate("dmixmod", 2, true),
    alternate("ltrtcmixlev", 3, true),
    alternate("ltrtsurmixlev", 3, true),
    alternate("lorocmixlev", 3, true),
    alternate("lorosurmixlev", 3, true),
    alternate("xbsi2e", 1, false),
    alternate("dsurexmod", 2, true),
    alternate("dheadphonmod", 2, true),
    alternate("adconvtyp", 1, true),
    alternate("xbsi2", 8, true),
    alternate("encinfo", 1, true),
    header("timecod1e", 1, false),
    header("timecod1", 14, true),
    header("timecod2e", 1, false),
    header("timecod2", 14, true),
    header("addbsie", 1, false),
    header("addbsil", 6, false),
    span("addbsi", Role::Addbsi, "8 x (addbsil + 1)", Section::Bsi),
    block("blksw", 1, Index::Channel, true),
    block("dithflag", 1, Index::Channel, true),
    with_role("dynrnge", Role::DynrngExists(0), 1, Section::Audblk, false),
    with_role("dynrng", Role::Dynrng(0), 8, Section::Audblk, true),
    with_role("dynrng2e", Role::DynrngExists(1), 1, Section::Audblk, false),
    with_role("dynrng2", Role::Dynrng(1), 8, Section::Audblk, true),
    block("cplstre", 1, Index::None, false),
    block("cplinu", 1, Index::None, false),
    block("chincpl", 1, Index::Channel, false),
    block("phsflginu", 1, Index::None, false),
    block("cplbegf", 4, Index::None, false),
    block("cplendf", 4, Index::None, false),
    block("cplbndstrc", 1, Index::SubBand, false),
    block("cplcoe", 1, Index::Channel, false),
    block("mstrcplco", 2, Index::Channel, true),
    block("cplcoexp", 4, Index::Channel, true).counted(Part::Band),
    block("cplcomant", 4, Index::Channel, true).counted(Part::Band),
    block("phsflg", 1, Index::CouplingBand, true),
    block("rematstr", 1, Index::None, false),
    block("rematflg", 1, Index::RematrixingBand, true),
    block("cplexpstr", 2, Index::None, false),
    block("chexpstr", 2, Index::Channel, false),
    block("lfeexpstr", 1, Index::None, false),
    block("chbwcod", 6, Index::Channel, false),
    block("cplabsexp", 4, Index::Zero, false),
    block("cplexps", 7, Index::Zero, false).counted(Part::Group(72)),
    block("exps[ch][0]", 4, Index::Channel, false),
    block("exps[ch]", 7, Index::Channel, false).counted(Part::Group(84)),
    block("gainrng", 2, Index::Channel, true),
    block("lfeexps[0]", 4, Index::Zero, false),
    block("lfeexps", 7, Index::Zero, false).counted(Part::Group(2)),
    block("baie", 1, Index::None, false),
    block("sdcycod", 2, Index::None, false),
    block("fdcycod", 2, Index::None, false),
    block("sgaincod", 2, Index::None, false),
    block("dbpbcod", 2, Index::None, false),
    block("floorcod", 3, Index::None, false),
    block("snroffste", 1, Index::None, false),
    block("csnroffst", 6, Index::None, false),
    block("cplfsnroffst", 4, Index::None, false),
    block("cplfgaincod", 3, Index::None, false),
    block("fsnroffst", 4, Index::Channel, false),
    block("fgaincod", 3, Index::Channel, false),
    block("lfefsnroffst", 4, Index::None, false),
    block("lfefgaincod", 3, Index::None, false),
    block("cplleake", 1, Index::None, false),
    block("cplfleak", 3, Index::None, false),
    block("cplsleak", 3, Index::None, false),
    block("deltbaie", 1, Index::None, false),
    block("cpldeltbae", 2, Index::None, false),
    block("deltbae", 2, Index::Channel, false),
    block("cpldeltnseg", 3, Index::CouplingSlot, false),
    block("cpldeltoffst", 5, Index::CouplingSlot, false).counted(Part::Segment),
    block("cpldeltlen", 4, Index::CouplingSlot, false).counted(Part::Segment),
    block("cpldeltba", 3, Index::CouplingSlot, false).counted(Part::Segment),
    block("deltnseg", 3, Index::Channel, false),
    block("deltoffst", 5, Index::Channel, false).counted(Part::Segment),
    block("deltlen", 4, Index::Channel, false).counted(Part::Segment),
    block("deltba", 3, Index::Channel, false).counted(Part::Segment),
    with_role("skiple", Role::Skiple, 1, Section::Audblk, false),
    with_role("skipl", Role::Skipl, 9, Section::Audblk, false),
    span("skipfld", Role::Skipfld, "8 x skipl", Section::Audblk),
    span("mantissas", Role::Mantissas, "as walked", Section::Audblk),
];

/// FNV-1a: names are short and few, and every row asks for one.
struct Fnv(u64);

impl Default for Fnv {
    fn default() -> Self {
        Fnv(0xCBF2_9CE4_8422_2325)
    }
}

impl Hasher for Fnv {
    fn write(&mut self, bytes: &[u8]) {
        for byte in bytes {
            self.0 = (self.0 ^ u64::from(*byte)).wrapping_mul(0x100_0000_01B3);
        }
    }

    fn finish(&self) -> u64 {
        self.0
    }
}

/// A name's number, 1 to 111.
pub fn number(text: &str) -> i32 {
    static NUMBERS: OnceLock<HashMap<&'static str, i32, BuildHasherDefault<Fnv>>> = OnceLock::new();
    let numbers =
        NUMBERS.get_or_init(|| (1..).zip(&NAMES).map(|(n, name)| (name.text, n)).collect());
    numbers[text]
}

pub fn of(number: i32) -> &'static Name {
    static TABLE: [Name; COUNT] = NAMES;
    &TABLE[number as usize - 1]
}

/// A role's number, 0 to 20, and its programme (-1: none).
pub fn role_numbers(role: Role) -> (i32, i32) {
    match role {
        Role::Plain => (0, -1),
        Role::Sync => (1, -1),
        Role::Crc1 => (2, -1),
        Role::Crc2 => (3, -1),
        Role::CrcRsv => (4, -1),
        Role::FrameSize => (5, -1),
        Role::Dialnorm(p) => (6, i32::from(p)),
        Role::ComprExists(p) => (7, i32::from(p)),
        Role::Compr(p) => (8, i32::from(p)),
        Role::DynrngExists(p) => (9, i32::from(p)),
        Role::Dynrng(p) => (10, i32::from(p)),
        Role::Skiple => (11, -1),
        Role::Skipl => (12, -1),
        Role::Skipfld => (13, -1),
        Role::Addbsi => (14, -1),
        Role::Mantissas => (15, -1),
        Role::AuxBits => (16, -1),
        Role::AuxDataL => (17, -1),
        Role::AuxDataE => (18, -1),
        Role::BlkStrtInfoE => (19, -1),
        Role::BlkStrtInfo => (20, -1),
    }
}

impl Index {
    fn allows(self, index: i32) -> bool {
        match self {
            Index::None => index == -1,
            Index::Channel => (0..5).contains(&index),
            Index::SubBand => (1..18).contains(&index),
            Index::CouplingBand => (0..18).contains(&index),
            Index::RematrixingBand => (0..4).contains(&index),
            Index::Zero => index == 0,
            Index::CouplingSlot => index == 5,
        }
    }
}

impl Part {
    /// How many there can be.
    pub fn most(self) -> i32 {
        match self {
            Part::None => 0,
            Part::Band => 18,
            Part::Group(most) => most,
            Part::Segment => 8,
        }
    }

    fn allows(self, part: i32) -> bool {
        match self {
            Part::None => part == NO_PART,
            several => (0..several.most()).contains(&part),
        }
    }
}

/// True if a row is of the kind that its name has in the table.
pub fn fits(row: &[i32]) -> bool {
    let name = of(row[row_at::NAME]);
    let in_block = name.section == Section::Audblk;
    let width_and_value = match name.width {
        Width::Bits(bits) => {
            row[row_at::WIDTH] == bits as i32 && (0..1 << bits).contains(&row[row_at::VALUE])
        }
        Width::Span(_) => row[row_at::WIDTH] >= 0 && row[row_at::VALUE] == 0,
    };
    (row[row_at::ROLE], row[row_at::PROGRAMME]) == role_numbers(name.role)
        && if in_block {
            (0..6).contains(&row[row_at::BLOCK])
        } else {
            row[row_at::BLOCK] == -1
        }
        && name.index.allows(row[row_at::INDEX])
        && name.part.allows(row[row_at::PART])
        && width_and_value
}

/// The table of docs/NAMES.md.
pub fn table() -> String {
    let mut out = String::from(
        "| No. | Name | Role | Width | Stands in | Index | Part | Programme | Span | Free |\n\
         |---|---|---|---|---|---|---|---|---|---|\n",
    );
    for (n, name) in (1..).zip(&NAMES) {
        let (role, programme) = role_numbers(name.role);
        let role_text: String = format!("{:?}", name.role)
            .chars()
            .take_while(|c| *c != '(')
            .collect();
        let width = match name.width {
            Width::Bits(bits) => bits.to_string(),
            Width::Span(text) => text.into(),
        };
        let section = match name.section {
            Section::Syncinfo => "syncinfo, 4.3.1",
            Section::Bsi => "bsi, 4.3.2",
            Section::AlternateBsi => "bsi, D.1.2",
            Section::Audblk => "audblk, 4.3.3",
        };
        let index = match name.index {
            Index::None => "none",
            Index::Channel => "channel",
            Index::SubBand => "sub-band, from 1",
            Index::CouplingBand => "coupling band",
            Index::RematrixingBand => "rematrixing band",
            Index::Zero => "0",
            Index::CouplingSlot => "5 (slot)",
        };
        let part = match name.part {
            Part::None => "none",
            Part::Band => "band",
            Part::Group(_) => "group",
            Part::Segment => "segment",
        };
        let programme = if programme < 0 {
            "none".into()
        } else {
            programme.to_string()
        };
        let span = if matches!(name.width, Width::Span(_)) {
            "yes"
        } else {
            ""
        };
        let free = if name.free { "yes" } else { "" };
        let text = name.text;
        out += &format!(
            "| {n} | {text} | {role} {role_text} | {width} | {section} | {index} | {part} | {programme} | {span} | {free} |\n"
        );
    }
    out
}
