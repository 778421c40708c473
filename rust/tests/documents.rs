//! The crate says what the documents and the C header say: names, roles, refusals.

mod files;
#[allow(dead_code)] // not all of it is said elsewhere
#[path = "../src/layout.rs"]
mod layout;

use ferrysprig::burst::{self, Refusal};
use ferrysprig::profile::{Profile, Rule};
use ferrysprig::{aht, blocks_into, edit, header, index, level, listing, parse, salvage, slot};
use ferrysprig::{Field, Role, SLOTS};
use ferrysprig::{LEAST_BYTES, MOST_BYTES, MOST_HEADER_ROWS, MOST_ROWS, ROW_NUMBERS};
use ferrysprig::{NAMES, REFUSALS};
use files::text;
use layout::SALVAGE_ANSWER_NUMBERS;
use layout::{aht_answer_at, answer_at, burst_answer_at, entry_at, header_answer_at};
use layout::{change_at, kind, level_answer_at, pack_answer_at, profile_answer_at, row_at};
use layout::{index_answer_at, index_entry_at, INDEX_ANSWER_NUMBERS, INDEX_ENTRY_NUMBERS};
use layout::{salvage_answer_at, tail_name, CHANGE_NUMBERS, LEVEL_ANSWER_NUMBERS, MOST_CHANGES};
use layout::{AHT_ANSWER_NUMBERS, ANSWER_NUMBERS, BURST_ANSWER_NUMBERS, ENTRY_NUMBERS};
use layout::{HEADER_ANSWER_NUMBERS, PACK_ANSWER_NUMBERS, PROFILE_ANSWER_NUMBERS};

#[test]
fn names_are_those_of_the_list() {
    let list = text("docs/NAMES.md");
    let named: Vec<&str> = list
        .lines()
        .filter_map(|line| {
            let mut cells = line.strip_prefix("| ")?.split(" | ");
            cells.next()?.parse::<u8>().ok()?;
            cells.next()
        })
        .collect();
    assert_eq!(named, NAMES);
}

/// The names that may be edited are those of the list's last column.
#[test]
fn free_names_are_those_of_the_list() {
    let list = text("docs/NAMES.md");
    let free = |name: &str| {
        let mut lines = list.lines().filter(|line| line.starts_with("| "));
        let line = lines.find(|line| line.split(" | ").nth(1) == Some(name));
        line.unwrap().ends_with(" yes |")
    };
    for name in NAMES {
        let field = Field::new(name, Role::Plain, -1, -1, 0, 1, 0);
        // A span's last cell but one says yes, its last one nothing.
        assert_eq!(field.editable(), free(name), "{name}");
    }
}

/// The texts of a table of the header's.
fn table(name: &str) -> Vec<String> {
    let header = text("c/ferrysprig.h");
    let (_, table) = header.split_once(&format!("#define {name} {{")).unwrap();
    let (table, _) = table.split_once('}').unwrap();
    table
        .split('"')
        .skip(1)
        .step_by(2)
        .map(String::from)
        .collect()
}

/// A number that the header defines.
fn number(name: &str) -> usize {
    let header = text("c/ferrysprig.h");
    let (_, rest) = header.split_once(&format!("#define {name} ")).unwrap();
    rest.split_whitespace().next().unwrap().parse().unwrap()
}

#[test]
fn texts_are_those_of_the_header() {
    assert_eq!(table("FERRYSPRIG_NAMES")[1..], NAMES);
    let meanings = table("FERRYSPRIG_MEANINGS");
    assert_eq!(meanings[0], "accepted");
    let (of_frames, of_others) = meanings[1..].split_at(REFUSALS.len());
    assert_eq!(of_frames, REFUSALS);
    let mut said = vec![""; of_others.len()];
    let mut say = |number: u8, meaning| said[usize::from(number) - 1 - REFUSALS.len()] = meaning;
    let stream = files::frame("fixed-2_0.ac3");
    let told = header(&stream).unwrap().summary;
    let other_header = blocks_into(&stream, 1, &mut [], &told).unwrap_err();
    say(other_header.number, other_header.meaning());
    for refusal in [
        Refusal::NotABurst,
        Refusal::WrongWords,
        Refusal::WrongLength,
        Refusal::NotZero,
        Refusal::OtherBsmod,
        Refusal::NoRoom,
    ] {
        say(refusal.number(), refusal.meaning());
    }
    for refusal in [
        salvage::Refusal::NoOutput,
        salvage::Refusal::NoEntry,
        salvage::Refusal::NoRow,
    ] {
        say(refusal.number(), refusal.meaning());
    }
    for refusal in listing::Refusal::ALL {
        say(refusal.number(), refusal.meaning());
    }
    for refusal in [
        level::Refusal::NoSuchProgramme,
        level::Refusal::WrongLevel,
        level::Refusal::NoTail,
    ] {
        say(refusal.number(), refusal.meaning());
    }
    for refusal in [
        edit::Refusal::WrongWidth,
        edit::Refusal::PastTheEnd,
        edit::Refusal::TooLarge,
    ] {
        say(refusal.number(), refusal.meaning());
    }
    // (37 of an index is that of a salvage.)
    let of_index = [
        index::Refusal::NoRow,
        index::Refusal::NoRoom,
        index::Refusal::OtherEntry,
    ];
    for refusal in of_index {
        say(refusal.number(), refusal.meaning());
    }
    assert_eq!(
        index::Refusal::NoRow.meaning(),
        salvage::Refusal::NoRow.meaning()
    );
    // (Refusal 6 of a section has a frame's number and its own text.)
    for refusal in [
        aht::Refusal::WrongGain,
        aht::Refusal::WrongHebap,
        aht::Refusal::NoSuchBin,
    ] {
        say(refusal.number(), refusal.meaning());
    }
    assert_eq!(of_others, said);
}

#[test]
fn numbers_are_those_of_the_header() {
    assert_eq!(ROW_NUMBERS, number("FERRYSPRIG_ROW_NUMBERS"));
    assert_eq!(ANSWER_NUMBERS, number("FERRYSPRIG_ANSWER_NUMBERS"));
    assert_eq!(SLOTS, number("FERRYSPRIG_SLOTS"));
    assert_eq!(SLOTS, judge::cut::blocks::SLOTS);
    let of_header = number("FERRYSPRIG_HEADER_ANSWER_NUMBERS");
    assert_eq!(HEADER_ANSWER_NUMBERS, of_header);
    let of_burst = number("FERRYSPRIG_BURST_ANSWER_NUMBERS");
    assert_eq!(BURST_ANSWER_NUMBERS, of_burst);
    let of_salvage = number("FERRYSPRIG_SALVAGE_ANSWER_NUMBERS");
    assert_eq!(SALVAGE_ANSWER_NUMBERS, of_salvage);
    assert_eq!(ENTRY_NUMBERS, number("FERRYSPRIG_ENTRY_NUMBERS"));
    let of_aht = number("FERRYSPRIG_AHT_ANSWER_NUMBERS");
    assert_eq!(AHT_ANSWER_NUMBERS, of_aht);
    let of_profile = number("FERRYSPRIG_PROFILE_ANSWER_NUMBERS");
    assert_eq!(PROFILE_ANSWER_NUMBERS, of_profile);
    let of_pack = number("FERRYSPRIG_PACK_ANSWER_NUMBERS");
    assert_eq!(PACK_ANSWER_NUMBERS, of_pack);
    let of_level = number("FERRYSPRIG_LEVEL_ANSWER_NUMBERS");
    assert_eq!(LEVEL_ANSWER_NUMBERS, of_level);
    assert_eq!(CHANGE_NUMBERS, number("FERRYSPRIG_CHANGE_NUMBERS"));
    assert_eq!(MOST_CHANGES, number("FERRYSPRIG_MOST_CHANGES"));
    let of_index = number("FERRYSPRIG_INDEX_ANSWER_NUMBERS");
    assert_eq!(INDEX_ANSWER_NUMBERS, of_index);
    let of_entry = number("FERRYSPRIG_INDEX_ENTRY_NUMBERS");
    assert_eq!(INDEX_ENTRY_NUMBERS, of_entry);
    assert_eq!(INDEX_ENTRY_NUMBERS, judge::layout::INDEXED);
    assert_eq!(MOST_ROWS, number("FERRYSPRIG_MOST_ROWS"));
    assert_eq!(MOST_HEADER_ROWS, number("FERRYSPRIG_MOST_HEADER_ROWS"));
    assert_eq!(MOST_BYTES, number("FERRYSPRIG_MOST_BYTES"));
    assert_eq!(LEAST_BYTES, number("FERRYSPRIG_LEAST_BYTES"));
    assert_eq!(burst::BYTES, number("FERRYSPRIG_BURST_BYTES"));
    let proved = text("crates/ac3/specs/RowBound.antt");
    assert!(proved.contains(&format!("\nmost_rows = {MOST_ROWS}\n")));
    let of_headers = text("crates/ac3/specs/Apart.antt");
    assert!(of_headers.contains(&format!("\nmost_header_rows = {MOST_HEADER_ROWS}\n")));
    let version = env!("CARGO_PKG_VERSION");
    assert!(text("c/ferrysprig.h").contains(&format!("#define FERRYSPRIG_VERSION \"{version}\"\n")));
    let of_version = version
        .split('.')
        .fold(0, |sum, part| 100 * sum + part.parse::<usize>().unwrap());
    assert_eq!(of_version, number("FERRYSPRIG_VERSION_NUMBER"));
}

/// The places of a row or an answer that the header names, without the prefix, each with its number.
fn places(prefix: &str) -> Vec<(String, usize)> {
    let header = text("c/ferrysprig.h");
    let named = header.lines().filter_map(|line| {
        let (name, rest) = line.trim().strip_prefix(prefix)?.split_once(" = ")?;
        let number = rest.split(|c: char| !c.is_ascii_digit()).next()?;
        Some((name.to_string(), number.parse().unwrap()))
    });
    named.collect()
}

/// The texts of the rules are those of the header.
#[test]
fn rules_are_those_of_the_header() {
    let mut said = vec![Profile::Within.to_string()];
    said.extend(Rule::ALL.map(|rule| rule.meaning().to_string()));
    assert_eq!(table("FERRYSPRIG_RULES"), said);
}

/// The header's numbers of roles are their places in its table, which the crate's roles are held to.
#[test]
fn roles_stand_at_their_numbers() {
    let table = table("FERRYSPRIG_ROLES");
    let numbers = places("FERRYSPRIG_ROLE_");
    assert_eq!(numbers.len(), 14);
    for (name, number) in numbers {
        let spelt = table[number].to_ascii_uppercase();
        assert_eq!(name.replace('_', ""), spelt);
    }
}

#[test]
fn places_are_those_of_the_header() {
    let row = [
        ("NAME", row_at::NAME),
        ("ROLE", row_at::ROLE),
        ("PROGRAMME", row_at::PROGRAMME),
        ("BLOCK", row_at::BLOCK),
        ("INDEX", row_at::INDEX),
        ("POSITION", row_at::POSITION),
        ("WIDTH", row_at::WIDTH),
        ("VALUE", row_at::VALUE),
        ("PART", row_at::PART),
    ];
    let answer = [
        ("REFUSAL", answer_at::REFUSAL),
        ("ROWS", answer_at::ROWS),
        ("BIT", answer_at::BIT),
        ("SUMMARY", judge::layout::answer_at::SUMMARY),
        ("BYTES", answer_at::BYTES),
        ("AUDIO_END", answer_at::AUDIO_END),
        ("BSID", answer_at::BSID),
        ("ACMOD", answer_at::ACMOD),
        ("LFEON", answer_at::LFEON),
        ("FSCOD", answer_at::FSCOD),
        ("CPL_BLOCKS", answer_at::CPL_BLOCKS),
        ("BLOCK_STARTS", answer_at::BLOCK_STARTS),
        ("MANTISSA_STARTS", answer_at::MANTISSA_STARTS),
        ("COORDINATES_SENT", answer_at::COORDINATES_SENT),
        ("NAME", answer_at::NAME),
        ("BLOCK", answer_at::BLOCK),
        ("MANTISSA_BITS", answer_at::MANTISSA_BITS),
    ];
    let slots = [("COUPLING", slot::COUPLING), ("LFE", slot::LFE)];
    let header = [
        ("REFUSAL", header_answer_at::REFUSAL),
        ("ROWS", header_answer_at::ROWS),
        ("BIT", header_answer_at::BIT),
        ("NAME", header_answer_at::NAME),
        ("BLOCK", header_answer_at::BLOCK),
        ("BYTES", header_answer_at::BYTES),
        ("BSID", header_answer_at::BSID),
        ("ACMOD", header_answer_at::ACMOD),
        ("LFEON", header_answer_at::LFEON),
        ("FSCOD", header_answer_at::FSCOD),
    ];
    let burst = [
        ("REFUSAL", burst_answer_at::REFUSAL),
        ("ROWS", answer_at::ROWS),
        ("WRITTEN", burst_answer_at::WRITTEN),
    ];
    let of_salvage = [
        ("REFUSAL", salvage_answer_at::REFUSAL),
        ("ENTRIES", salvage_answer_at::ENTRIES),
        ("WRITTEN", salvage_answer_at::WRITTEN),
    ];
    let entry = [
        ("KIND", entry_at::KIND),
        ("PLACE", entry_at::PLACE),
        ("LENGTH", entry_at::LENGTH),
    ];
    let kinds = [("FRAME", kind::FRAME), ("GAP", kind::GAP)];
    let aht = [
        ("REFUSAL", aht_answer_at::REFUSAL),
        ("END", aht_answer_at::END),
        ("TAGS", aht_answer_at::TAGS),
    ];
    let profile = [
        ("REFUSAL", profile_answer_at::REFUSAL),
        ("ROWS", profile_answer_at::ROWS),
        ("RULE", profile_answer_at::RULE),
        ("ROW", profile_answer_at::ROW),
    ];
    let pack = [
        ("REFUSAL", pack_answer_at::REFUSAL),
        ("WRITTEN", pack_answer_at::WRITTEN),
    ];
    let of_level = [
        ("REFUSAL", level_answer_at::REFUSAL),
        ("ROWS", answer_at::ROWS),
        ("CHANGES", level_answer_at::CHANGES),
    ];
    let change = [
        ("NAME", change_at::NAME),
        ("OLD", change_at::OLD),
        ("NEW", change_at::NEW),
    ];
    let tail = [("CRCRSV", tail_name::CRCRSV), ("CRC2", tail_name::CRC2)]
        .map(|(name, number)| (name, number as usize));
    let of_index = [
        ("REFUSAL", index_answer_at::REFUSAL),
        ("ENTRIES", index_answer_at::ENTRIES),
    ];
    let indexed = [
        ("PLACE", index_entry_at::PLACE),
        ("LENGTH", index_entry_at::LENGTH),
        ("ACMOD", index_entry_at::ACMOD),
        ("DIALNORM", index_entry_at::DIALNORM),
        ("DIALNORM2", index_entry_at::DIALNORM2),
    ];
    let rules = [
        ("FSCOD", Rule::Fscod),
        ("ACMOD", Rule::Acmod),
        ("BSID", Rule::Bsid),
        ("WORDS", Rule::Words),
        ("LFEON", Rule::Lfeon),
        ("DELTBAIE", Rule::Deltbaie),
        ("DIALNORM", Rule::Dialnorm),
    ]
    .map(|(name, rule)| (name, usize::from(rule.number())));
    let own = |ours: &[(&str, usize)]| {
        let pairs = ours.iter().map(|(name, at)| (name.to_string(), *at));
        pairs.collect::<Vec<_>>()
    };
    assert_eq!(places("FERRYSPRIG_ROW_"), own(&row));
    assert_eq!(places("FERRYSPRIG_ANSWER_"), own(&answer));
    assert_eq!(places("FERRYSPRIG_SLOT_"), own(&slots));
    assert_eq!(places("FERRYSPRIG_HEADER_ANSWER_"), own(&header));
    assert_eq!(places("FERRYSPRIG_BURST_ANSWER_"), own(&burst));
    assert_eq!(places("FERRYSPRIG_SALVAGE_ANSWER_"), own(&of_salvage));
    assert_eq!(places("FERRYSPRIG_ENTRY_"), own(&entry));
    assert_eq!(places("FERRYSPRIG_KIND_"), own(&kinds));
    assert_eq!(places("FERRYSPRIG_AHT_ANSWER_"), own(&aht));
    assert_eq!(places("FERRYSPRIG_PROFILE_ANSWER_"), own(&profile));
    assert_eq!(places("FERRYSPRIG_RULE_"), own(&rules));
    assert_eq!(places("FERRYSPRIG_PACK_ANSWER_"), own(&pack));
    assert_eq!(places("FERRYSPRIG_LEVEL_ANSWER_"), own(&of_level));
    assert_eq!(places("FERRYSPRIG_CHANGE_"), own(&change));
    assert_eq!(places("FERRYSPRIG_NAME_"), own(&tail));
    assert_eq!(places("FERRYSPRIG_INDEX_ANSWER_"), own(&of_index));
    assert_eq!(places("FERRYSPRIG_INDEX_ENTRY_"), own(&indexed));
}

#[test]
fn a_refusal_is_an_error() {
    fn fails() -> Result<(), Box<dyn std::error::Error>> {
        parse(b"not AC-3")?;
        Ok(())
    }
    assert_eq!(
        fails().unwrap_err().to_string(),
        "refusal 2 at bit 16: the sync word is not 0x0B77"
    );
}
