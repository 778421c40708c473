//! AHT sections: the answers of the generator's first calls as types, every refusal by its text, and places and bins without bound.

use ferrysprig::aht::{walk, Refusal};
use judge::aht_cases::{Case, Sections};

/// What is told, as numbers.
fn told(data: &[u8], at: usize, end: usize, hebap: &[u8], first: usize, past: usize) -> [usize; 3] {
    match walk(data, at, end, hebap, first..past) {
        Ok(section) => [0, section.end, section.tags],
        Err(refusal) => [refusal.number().into(), 0, 0],
    }
}

#[test]
fn the_judges_answers() {
    let mut compare = |case: &Case<'_>| {
        let asked = &case.asked;
        let answer = told(
            asked.data,
            asked.at,
            asked.end,
            asked.hebap,
            asked.first,
            asked.past,
        );
        assert_eq!(answer, case.answer, "{asked:?}");
    };
    Sections::new(3, &mut compare).run(0);
}

#[test]
fn refusals_in_their_order() {
    // gaqmod 3 and composite gain 27.
    let data = [0b1111_0110, 0, 0];
    let of = |end, hebap: &[u8], past| walk(&data, 0, end, hebap, 0..past);
    assert_eq!(of(0, &[8, 20], 3), Err(Refusal::NoSuchBin));
    assert_eq!(of(6, &[8, 20], 2), Err(Refusal::PastTheEnd));
    assert_eq!(of(7, &[8, 20], 2), Err(Refusal::WrongGain));
    assert_eq!(of(2, &[0, 20], 2), Err(Refusal::WrongHebap));
    assert_eq!(of(2, &[20, 1], 1), Err(Refusal::WrongHebap));
    assert_eq!(of(3, &[1, 20], 2), Err(Refusal::PastTheEnd));
    assert_eq!(of(4, &[1, 20], 2), Err(Refusal::WrongHebap));
    assert_eq!(of(4, &[1, 20], 1).unwrap().end, 4);
}

#[test]
fn places_and_bins_without_bound() {
    let data = [0; 3];
    for far in [25, 1 << 40, usize::MAX - 2, usize::MAX - 1, usize::MAX] {
        assert_eq!(told(&data, far, usize::MAX, &[8], 0, 1), [6, 0, 0]);
        assert_eq!(told(&data, far, 24, &[8], 0, 1), [6, 0, 0]);
        assert_eq!(told(&data, 4, far, &[8], 0, 1), [0, 24, 0]);
        assert_eq!(told(&data, 5, far, &[8], 0, 1), [6, 0, 0]);
        assert_eq!(told(&data, 0, 24, &[8], far, 1), [0, 2, 0]);
        assert_eq!(told(&data, 0, 24, &[8], 0, far), [27, 0, 0]);
        assert_eq!(told(&data, far, far, &[8], far, far), [27, 0, 0]);
    }
    assert_eq!(told(&[], 0, 0, &[], 0, 0), [6, 0, 0]);
    assert_eq!(told(&[], 0, 0, &[], 0, 1), [27, 0, 0]);
}

/// A section among other bits, at every bit of a byte: the same width and tags.
#[test]
#[allow(clippy::unusual_byte_groupings)] // the groups are the section's fields
fn equal_bits_at_other_places() {
    // gaqmod 2, gain 4, and a tag with seven bits after it; hebap 12 has mantissas of 7 bits, small ones of 5.
    let (section, width) = (0b10_1_10000_1111111_00001_00010_10001_11111_00000u64, 40);
    for at in 0..24 {
        for around in [0, u64::MAX] {
            let mask = (u64::MAX >> (64 - width)) << (64 - width - at);
            let bits = (section << (64 - width - at)) | (around & !mask);
            let data = bits.to_be_bytes();
            let told = walk(&data, at, 64, &[12], 0..1).unwrap();
            assert_eq!((told.end, told.tags), (at + width, 1));
        }
    }
}

#[test]
fn a_refusal_is_an_error() {
    fn fails() -> Result<(), Box<dyn std::error::Error>> {
        walk(&[0], 0, 8, &[20], 0..1)?;
        Ok(())
    }
    assert_eq!(
        fails().unwrap_err().to_string(),
        "refusal 26: a hebap is above 19"
    );
    for (refusal, number) in [
        (Refusal::PastTheEnd, 6),
        (Refusal::WrongGain, 25),
        (Refusal::WrongHebap, 26),
        (Refusal::NoSuchBin, 27),
    ] {
        let meaning = refusal.meaning();
        assert_eq!(refusal.to_string(), format!("refusal {number}: {meaning}"));
    }
}
