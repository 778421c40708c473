//! The values (a) to (j) of docs/FORMAT.md and its tables, against the published functions.

use judge::alloc::{allocate, Channel, DeltaSeg, Params};
use judge::blocks::{
    allocate_block, conventional, read_exponents, AllocState, ExpSet, Groups, SlotAlloc,
};
use judge::craft::small;
use judge::syntax::Cursor;
use judge::tables::{ac3_frame_words, masktab, BAND_END, BAP, FLOOR, HEBAP, LOG_ADD};

#[test]
fn a_frame_bytes() {
    let bytes = |fscod, frmsizecod| ac3_frame_words(fscod, frmsizecod).map(|words| 2 * words);
    assert_eq!(bytes(0, 0), Some(128));
    assert_eq!(bytes(1, 0), Some(138));
    assert_eq!(bytes(1, 1), Some(140));
    assert_eq!(bytes(2, 37), Some(3840));
    assert_eq!(bytes(0, 38), None);
    assert_eq!(bytes(3, 0), None);
}

#[test]
fn b_seven_bits() {
    assert_eq!(judge::bits::get(&[0x0B, 0x77], 5, 7), 55);
}

/// Exponents of the LFE channel (one, then two groups) that start at `start`.
fn lfe_exponents(start: u32, groups: [u32; 2]) -> Result<Vec<i16>, String> {
    let mut data = [0; 4];
    judge::bits::set(&mut data, 0, 4, start);
    judge::bits::set(&mut data, 4, 7, groups[0]);
    judge::bits::set(&mut data, 11, 7, groups[1]);
    let mut cursor = Cursor::new(&data, 32);
    let set = read_exponents(&mut cursor, judge::blocks::LFE, 1, 0, 7);
    set.map(|set| set.exp[..7].to_vec())
        .map_err(|e| e.to_string())
}

#[test]
fn c_groups() {
    assert_eq!(lfe_exponents(3, [124, 62]), Ok(vec![3, 5, 7, 9, 9, 9, 9]));
    let refused = lfe_exponents(3, [125, 62]).unwrap_err();
    assert_eq!(refused, "invalid stream: grouped exponent 125 > 124");
}

#[test]
fn d_groups_of_a_channel() {
    // With one group missing the set is too short for bin 75, so the counts are just enough.
    for (strategy, groups) in [(1, 25), (2, 13), (3, 7)] {
        let frame = small(&|a| match a.name {
            "chbwcod" => Some(1),
            "chexpstr" if a.block == 0 => Some(strategy),
            _ => None,
        });
        let parsed = judge::ac3::parse(&frame).expect("accepted");
        assert_eq!(
            parsed
                .fields
                .iter()
                .filter(|f| f.name == "exps[ch]")
                .count(),
            groups
        );
        let per_group = 3 << (strategy - 1);
        assert!(1 + groups * per_group >= 76 && 1 + (groups - 1) * per_group < 76);
    }
}

#[test]
fn e_bands() {
    assert_eq!([27, 28, 30, 31, 252].map(masktab), [27, 28, 28, 29, 49]);
    // The same bands, as ranges of equal width.
    let ranged = |bin: usize| match bin {
        0..28 => bin,
        28..49 => 28 + (bin - 28) / 3,
        49..85 => 35 + (bin - 49) / 6,
        85..133 => 41 + (bin - 85) / 12,
        _ => 45 + (bin - 133) / 24,
    };
    assert!((0..253).all(|bin| masktab(bin) == ranged(bin)));
    assert_eq!(BAND_END[49], 253);
}

#[test]
fn f_one_sub_band() {
    let coupled = |begin: u32| {
        small(&|a| match a.name {
            "acmod" => Some(2),
            "cplinu" | "chincpl" => Some(1),
            "cplbegf" => Some(begin),
            "cplendf" => Some(3),
            "cplexpstr" | "chexpstr" if a.block == 0 => Some(1),
            _ => None,
        })
    };
    let frame = judge::ac3::parse(&coupled(5)).expect("accepted");
    let rows = |name: &str, index: i16| {
        frame
            .fields
            .iter()
            .filter(|f| f.name == name && f.index == index)
            .count()
    };
    // D15: a third of the bins, so the channels end at 97 and coupling is 12 bins from there.
    assert_eq!(
        [rows("exps[ch]", 0), rows("exps[ch]", 1), rows("cplexps", 0)],
        [32, 32, 4]
    );
    assert_eq!(rows("cplbndstrc", 1), 0);
    let refused = judge::ac3::parse(&coupled(6)).unwrap_err().to_string();
    assert_eq!(refused, "invalid stream: cplbegf beyond cplendf + 2");
}

const PARAMS: Params = Params {
    sdecay: 15,
    fdecay: 63,
    sgain: 1344,
    dbknee: 0,
    floor: FLOOR[7] as i32,
    fscod: 0,
};

/// Exponents that go up and down, so that each SNR offset gives another allocation.
fn exponents() -> Vec<i16> {
    (0..256).map(|bin| (bin % 25 - 12i16).abs() * 2).collect()
}

fn pointers(snroffset: i32, delta: &[DeltaSeg]) -> Vec<u8> {
    let exp = exponents();
    let channel = Channel {
        exp: &exp,
        start: 0,
        end: 253,
        fgain: 128,
        snroffset,
        leak: None,
        delta,
    };
    allocate(&channel, &PARAMS, &BAP)
}

#[test]
fn g_snr_offsets() {
    for (csnroffst, fsnroffst, snroffset) in [(0, 0, -960), (15, 0, 0), (63, 15, 3132)] {
        let mut state = AllocState {
            bai: Some([0, 0, 0, 0, 7]),
            csnroffst: Some(csnroffst),
            ..AllocState::default()
        };
        // Slot 1 keeps the offsets from being all 0.
        (state.fsnroffst[0], state.fsnroffst[1]) = (fsnroffst, 1);
        let set = ExpSet {
            exp: exponents(),
            start: 0,
            end: 253,
        };
        let slots = [0, 1].map(|slot| SlotAlloc {
            slot,
            exps: &set,
            start: 0,
            end: 253,
            high_efficiency: false,
        });
        let bap = allocate_block(&state, 0, &slots).expect("allocated");
        assert_eq!(bap[0], pointers(snroffset, &[]));
    }
    // The three cannot be taken for each other or for a neighbour, but for offsets so low or so
    // high that every pointer is at its end already.
    assert_ne!(pointers(0, &[]), pointers(-64, &[]));
    assert_ne!(pointers(0, &[]), pointers(64, &[]));
    assert_ne!(pointers(0, &[]), pointers(-960, &[]));
    assert_ne!(pointers(0, &[]), pointers(3132, &[]));
}

#[test]
fn h_delta() {
    for (ba, delta) in [(0, -512), (3, -128), (4, 128), (7, 512)] {
        // Raising the mask of every band is lowering the SNR offset.
        let segments = [15, 15, 15, 5].map(|len| DeltaSeg { offset: 0, len, ba });
        assert_eq!(pointers(700, &segments), pointers(700 - delta, &[]));
        assert_ne!(pointers(700, &segments), pointers(700, &[]));
    }
}

#[test]
fn i_mantissa_bits() {
    let bits = |bap: &[u8]| {
        let mut cursor = Cursor::new(&[0; 8], 64);
        let mut groups = Groups::default();
        conventional(&mut cursor, bap, 0, bap.len(), &mut groups).expect("64 bits suffice");
        cursor.pos
    };
    assert_eq!(bits(&[1, 1, 1, 1]), 10);
    assert_eq!(bits(&[4, 4, 4]), 14);
    assert_eq!(bits(&[2, 1, 2]), 12);
}

/// A table of so many zeros, ones, twos and so on.
fn of_runs(runs: &[usize]) -> Vec<u8> {
    let values = (0u8..).zip(runs);
    values.flat_map(|(value, run)| vec![value; *run]).collect()
}

#[test]
fn bap_is_the_listed_runs() {
    let runs = [1, 5, 2, 3, 2, 2, 4, 4, 4, 4, 4, 4, 4, 4, 8, 9];
    assert_eq!(of_runs(&runs), BAP);
}

#[test]
fn hebap_is_the_listed_runs() {
    let runs = [1, 1, 1, 1, 1, 1, 1, 1, 4, 3, 4, 4, 4, 4, 4, 4, 4, 4, 8, 9];
    assert_eq!(of_runs(&runs), HEBAP);
}

#[test]
fn log_add_falls_by_at_most_one() {
    assert_eq!((LOG_ADD.len(), LOG_ADD[0], LOG_ADD[255]), (256, 64, 0));
    assert!(LOG_ADD.windows(2).all(|w| w[0] == w[1] || w[0] == w[1] + 1));
}

#[test]
fn no_end_passes_253() {
    assert_eq!(37 + 3 * (60 + 12), 253);
    assert_eq!(37 + 12 * (15 + 3), 253);
}
